'use strict';

// One of many pages: logs in by Strophe.js over the manager of its path, sends itself a numbered message every second, logs in anew where
// its session is over, and posts at the end what came of each login.
const asked = new URLSearchParams(location.search);
const node = location.pathname.split('/')[1];
const logins = [];
let connection = null;
let current = null;
let sent = 0;

function onMessage(stanza) {
  const body = stanza.getElementsByTagName('body')[0];
  if (body) {
    current.got.push(Number(body.textContent));
  }
  return true;
}

function onStatus(own, status, condition) {
  if (own !== connection) {
    return; // of a session that is over already
  }
  if (status === Strophe.Status.CONNECTED) {
    current = { sid: own._proto.sid, sent: [], got: [], over: null };
    logins.push(current);
    own.addHandler(onMessage, null, 'message');
    own.send($pres());
  } else if (status === Strophe.Status.CONNFAIL && current !== null && current.over === null) {
    current.over = condition;
  } else if (status === Strophe.Status.DISCONNECTED) {
    connection = null;
    setTimeout(logIn, 500);
  }
}

function logIn() {
  const own = new Strophe.Connection(new URL('http-bind', location.href).pathname);
  connection = own;
  own.connect(asked.get('domain'), '', (status, condition) => onStatus(own, status, condition));
}

const ticking = setInterval(() => {
  if (connection !== null && connection.connected && connection.authenticated && current !== null && current.over === null) {
    current.sent.push(sent);
    connection.send($msg({ to: connection.jid, type: 'chat' }).c('body').t(String(sent)));
    sent += 1;
  }
}, 1000);

function report() {
  fetch(asked.get('report'), { method: 'POST', mode: 'no-cors', body: JSON.stringify({ page: asked.get('page'), node, logins }) });
}

// At the end nothing more is sent, and what is on its way is waited for.
setTimeout(() => {
  clearInterval(ticking);
  const limit = Date.now() + 60000;
  const waiting = setInterval(() => {
    if ((current !== null && current.over === null && current.got.length >= current.sent.length) || Date.now() > limit) {
      clearInterval(waiting);
      report();
    }
  }, 500);
}, Number(asked.get('seconds')) * 1000);

logIn();
