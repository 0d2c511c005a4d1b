'use strict';

// A session of a BOSH manager (XEP-0124), by fetch. One request is always out, so that the manager can answer at any time;
// a second one goes out at once when there is something to say.
class BoshSession {
  constructor(url, host, events) {
    this.url = url;
    this.host = host;
    this.events = events;
    this.rid = 1 + Math.floor(Math.random() * 4294967296);
    this.sid = null;
    this.queue = [];
    this.out = 0;
    this.limit = 1;
    this.over = false;
    // Answers may come in another order than their requests: each is read once those before it were.
    this.answers = new Map();
    this.next = this.rid;
    // The requests that have no answer yet: their texts, and how many copies of each were sent.
    this.asked = new Map();
  }

  open() {
    this.request({ to: this.host, wait: '60', hold: '1', ver: '1.6' }, []);
  }

  send(stanza) {
    this.queue.push(stanza);
    this.go();
  }

  close() {
    if (!this.over && this.sid !== null) {
      this.request({ sid: this.sid, type: 'terminate' }, this.queue.splice(0));
    }
  }

  // Sends what there is to send, or an empty request where none is out.
  go() {
    if (this.over || this.sid === null || this.out >= this.limit) {
      return;
    }
    if (this.queue.length > 0 || this.out === 0) {
      this.request({ sid: this.sid }, this.queue.splice(0));
    }
  }

  request(attributes, stanzas) {
    const rid = this.rid;
    this.rid += 1;
    this.out += 1;
    const body = document.implementation.createDocument('http://jabber.org/protocol/httpbind', 'body');
    body.documentElement.setAttribute('rid', String(rid));
    for (const [name, value] of Object.entries(attributes)) {
      body.documentElement.setAttribute(name, value);
    }
    for (const stanza of stanzas) {
      body.documentElement.append(body.importNode(stanza, true));
    }
    this.asked.set(rid, { text: new XMLSerializer().serializeToString(body), copies: 0 });
    this.post(rid, 3);
  }

  // A request that failed is sent again as it was: the manager knows it by its number and does nothing twice. The manager lets go of a
  // copy when a later one comes, so a copy that isn't the last one may fail.
  async post(rid, tries) {
    const asked = this.asked.get(rid);
    asked.copies += 1;
    const copy = asked.copies;
    const isLast = () => !this.over && this.asked.has(rid) && asked.copies === copy;
    try {
      const response = await fetch(this.url, {
        method: 'POST',
        headers: { 'Content-Type': 'text/xml; charset=utf-8' },
        body: asked.text,
      });
      if (!response.ok) {
        throw new Error(`status ${response.status}`);
      }
      const text = await response.text();
      if (typeOf(text) !== 'error') {
        this.take(rid, text);
      } else if (isLast()) {
        this.again(rid);
      }
    } catch (error) {
      if (!isLast()) {
        return;
      }
      if (tries > 1) {
        setTimeout(() => isLast() && this.post(rid, tries - 1), 1000);
      } else {
        this.end(error.message);
      }
    }
  }

  // The manager didn't receive this request, since an earlier one is missing (XEP-0124, section 17.3). An error is no answer: this
  // request and all earlier ones without an answer are sent again as they were, the lowest first.
  again(last) {
    for (const rid of [...this.asked.keys()].sort((one, other) => one - other)) {
      if (rid <= last) {
        this.post(rid, 3);
      }
    }
  }

  take(rid, text) {
    if (!this.asked.delete(rid)) {
      return;
    }
    this.answers.set(rid, text);
    while (this.answers.has(this.next)) {
      const answer = this.answers.get(this.next);
      this.answers.delete(this.next);
      this.next += 1;
      this.out -= 1;
      this.read(answer);
    }
    this.go();
  }

  read(text) {
    const body = new DOMParser().parseFromString(text, 'text/xml').documentElement;
    if (this.sid === null && body.hasAttribute('sid')) {
      this.sid = body.getAttribute('sid');
      this.limit = Number(body.getAttribute('requests') ?? 2);
      this.events.opened();
    }
    for (const stanza of body.children) {
      this.events.stanza(stanza);
    }
    if (body.getAttribute('type') === 'terminate') {
      this.end(body.getAttribute('condition') ?? 'left');
    }
  }

  end(why) {
    if (!this.over) {
      this.over = true;
      this.events.ended(why);
    }
  }
}

// What an answer means for its session: it goes on where there is no type.
function typeOf(text) {
  return new DOMParser().parseFromString(text, 'text/xml').documentElement.getAttribute('type');
}

// The page.
const element = (id) => document.getElementById(id);
let session = null;

function show(text, kind) {
  const line = document.createElement('p');
  line.className = kind;
  line.textContent = text;
  element('lines').append(line);
  line.scrollIntoView();
}

function setEntered(entered) {
  element('leave').disabled = !entered;
  element('text').disabled = !entered;
  element('say').querySelector('button').disabled = !entered;
  element('enter').querySelector('button').disabled = entered;
}

function message(name, text) {
  const stanza = document.implementation.createDocument('jabber:client', 'message');
  stanza.documentElement.setAttribute('from', name);
  const body = stanza.createElementNS('jabber:client', 'body');
  body.textContent = text;
  stanza.documentElement.append(body);
  return stanza.documentElement;
}

element('enter').addEventListener('submit', (event) => {
  event.preventDefault();
  session = new BoshSession('/http-bind', element('host').value, {
    opened: () => {
      setEntered(true);
      show('you are in', 'note');
    },
    stanza: (stanza) => {
      if (stanza.localName === 'message') {
        show(`${stanza.getAttribute('from')}: ${stanza.textContent}`, 'said');
      }
    },
    ended: (why) => {
      setEntered(false);
      show(`the session is over: ${why}`, 'note');
    },
  });
  session.open();
});

element('leave').addEventListener('click', () => session.close());

element('say').addEventListener('submit', (event) => {
  event.preventDefault();
  session.send(message(element('name').value, element('text').value));
  element('text').value = '';
});
