'use strict';

// A login by Strophe.js over the manager, and messages to any address of the server; at first to oneself.
const field = (id) => document.getElementById(id);
let connection = null;

function note(text, kind = 'note') {
  const line = document.createElement('p');
  line.className = kind;
  line.textContent = text;
  field('lines').append(line);
  line.scrollIntoView();
}

function setOnline(online) {
  for (const part of [field('to'), field('text'), field('say').querySelector('button'), field('leave')]) {
    part.disabled = !online;
  }
  field('login').querySelector('button').disabled = online;
}

function onMessage(stanza) {
  const body = stanza.getElementsByTagName('body')[0];
  if (body) {
    note(`${stanza.getAttribute('from')}: ${body.textContent}`, 'message');
  }
  return true;
}

function onStatus(status, condition) {
  const names = Object.entries(Strophe.Status).filter(([, value]) => value === status).map(([name]) => name.toLowerCase());
  note(condition ? `${names[0]}: ${condition}` : names[0]);
  if (status === Strophe.Status.CONNECTED) {
    connection.addHandler(onMessage, null, 'message');
    connection.send($pres());
    field('to').value = connection.jid;
    note(`you are ${connection.jid}`);
    setOnline(true);
    field('text').focus();
  } else if (status === Strophe.Status.DISCONNECTED) {
    setOnline(false);
  }
}

field('login').addEventListener('submit', (event) => {
  event.preventDefault();
  connection = new Strophe.Connection('/http-bind');
  connection.connect(field('address').value, field('password').value, onStatus);
});

field('leave').addEventListener('click', () => connection.disconnect('left'));

field('say').addEventListener('submit', (event) => {
  event.preventDefault();
  connection.send($msg({ to: field('to').value, type: 'chat' }).c('body').t(field('text').value));
  field('text').value = '';
});

window.addEventListener('beforeunload', () => {
  if (connection !== null && connection.connected) {
    connection.options.sync = true;
    connection.flush();
    connection.disconnect('left');
  }
});
