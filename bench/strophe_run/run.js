'use strict';

// Logs in by Strophe.js, sends itself messages, reloads in the midst, is silent for a while, says one thing more, and logs out. What
// came back, and in which order, is posted to /report.
const asked = new URLSearchParams(location.search);
const count = Number(asked.get('count') || 200);
const silence = Number(asked.get('silence') || 40) * 1000;
const outstanding = 5;
// With it the page says a message each so many milliseconds, whatever came back, and neither reloads nor is silent.
const every = Number(asked.get('every') || 0) * 1000;

const kept = JSON.parse(sessionStorage.getItem('run') || '{"sent": 0, "got": [], "statuses": [], "reloads": 0}');
const connection = new Strophe.Connection('/http-bind', { keepalive: true });
let isOver = false;
const began = performance.now();

function keep() {
  sessionStorage.setItem('run', JSON.stringify(kept));
}

async function report(end) {
  if (isOver) {
    return;
  }
  isOver = true;
  const inOrder = kept.got.every((number, at) => number === at);
  sessionStorage.clear();
  await fetch('/report', {
    method: 'POST',
    body: JSON.stringify({ end, sent: kept.sent, got: kept.got.length, inOrder, reloads: kept.reloads, statuses: kept.statuses, seconds: Math.round((performance.now() - began) / 100) / 10 }),
  });
}

function say() {
  connection.send($msg({ to: connection.jid, type: 'chat', id: `m${kept.sent}` }).c('body').t(`hello ${kept.sent}`));
  kept.sent += 1;
}

// Says more, as long as few messages are out, up to this many in all.
function sayUpTo(most) {
  while (kept.sent < most && kept.sent - kept.got.length < outstanding) {
    say();
  }
}

function sayEach() {
  if (kept.sent < count) {
    say();
    setTimeout(sayEach, every);
  }
}

function goOn() {
  if (every > 0) {
    if (kept.got.length === count) {
      connection.disconnect('done');
    }
    return;
  }
  const all = kept.sent === kept.got.length;
  if (kept.reloads === 0) {
    sayUpTo(count / 2);
    if (all && kept.sent === count / 2) {
      kept.reloads = 1;
      keep();
      // Whoever reloads does so while a request waits, and no answer is on its way.
      setTimeout(() => location.reload(), 300);
      return;
    }
  } else if (kept.sent < count) {
    sayUpTo(count);
  } else if (all && kept.sent === count) {
    setTimeout(say, silence);
  } else if (all && kept.sent > count) {
    connection.disconnect('done');
  }
}

function onMessage(stanza) {
  const body = stanza.getElementsByTagName('body')[0];
  if (body) {
    kept.got.push(Number(body.textContent.slice('hello '.length)));
    goOn();
  }
  return true;
}

function onStatus(status, condition) {
  const name = Object.entries(Strophe.Status).find(([, value]) => value === status)[0];
  kept.statuses.push(condition ? `${name}: ${condition}` : name);
  if (status === Strophe.Status.CONNECTED || status === Strophe.Status.ATTACHED) {
    connection.addHandler(onMessage, null, 'message');
    if (kept.reloads === 0) {
      connection.send($pres());
    }
    if (every > 0) {
      sayEach();
    } else {
      goOn();
    }
  } else if (status === Strophe.Status.DISCONNECTED) {
    report('disconnected');
  } else if (status === Strophe.Status.AUTHFAIL || status === Strophe.Status.CONNFAIL) {
    report('failed');
  }
}

window.addEventListener('load', () => {
  setTimeout(() => report('too late'), Number(asked.get('limit') || 240) * 1000);
  if (kept.reloads > 0) {
    connection.restore(null, onStatus);
  } else {
    connection.connect(asked.get('address'), asked.get('password') || '', onStatus, Number(asked.get('wait') || 60));
  }
});
