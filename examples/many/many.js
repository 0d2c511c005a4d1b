'use strict';

// Logs in by Strophe.js over the manager of this page's path, and sends itself messages. Where the session is over it logs in anew.
const DOMAIN = 'anonymous.localhost';
let connection = null;
let count = 0;

function note(text) {
  const line = document.createElement('p');
  line.textContent = `${new Date().toLocaleTimeString()} ${text}`;
  document.getElementById('lines').append(line);
  line.scrollIntoView();
}

function onMessage(stanza) {
  const body = stanza.getElementsByTagName('body')[0];
  if (body) {
    note(`got ${body.textContent}`);
  }
  return true;
}

function onStatus(own, status, condition) {
  if (own !== connection) {
    return; // of a session that is over already
  }
  if (status === Strophe.Status.CONNECTED) {
    // The name of the session begins with that of its manager.
    note(`logged in as ${own.jid}, session ${own._proto.sid}`);
    own.addHandler(onMessage, null, 'message');
    own.send($pres());
  } else if (status === Strophe.Status.CONNFAIL) {
    note(`the session is over: ${condition}`);
  } else if (status === Strophe.Status.DISCONNECTED) {
    connection = null;
    setTimeout(logIn, 1000);
  }
}

function logIn() {
  // A relative URL: /s1/http-bind for the page at /s1/.
  const own = new Strophe.Connection(new URL('http-bind', location.href).pathname);
  connection = own;
  own.connect(DOMAIN, '', (status, condition) => onStatus(own, status, condition));
}

setInterval(() => {
  if (connection !== null && connection.connected && connection.authenticated) {
    count += 1;
    connection.send($msg({ to: connection.jid, type: 'chat' }).c('body').t(`message ${count}`));
  }
}, 2000);

logIn();
