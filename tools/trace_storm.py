#!/usr/bin/env python3
"""Sessions at a server that writes traces, whose connections are lost and whose requests come twice and out of order, and what the audit says
of each trace.

usage: tools/trace_storm.py PROGRAM [SESSIONS] [TURNS] [SEED]     PROGRAM runs the commands `serve` and `audit`: ./robelava, or one that does the
                                                                  same. 40 sessions beside each other, of 30 turns each, where no other is said

Each turn makes one to three requests with up to three stanzas. One in five loses its connection before its answer comes, one in ten comes on a
second connection too, and of two the later is often sent first. What wasn't answered is sent again, as the same bytes. Some sessions end by a rule:
a copy of theirs comes so late that its answer isn't kept any more. 300 traces with one line dropped, doubled, altered or exchanged are audited too.
"""
import collections
import os
import random
import re
import socket
import stat
import subprocess
import sys
import tempfile
import threading

import pair_to_trace
import plain_audit

PORT = 47013
NAMESPACE = "xmlns='http://jabber.org/protocol/httpbind'"


class Gone(Exception):
    """The connection was closed before an answer came."""


class Link:
    def __init__(self):
        self.link = socket.create_connection(("127.0.0.1", PORT))
        self.link.setsockopt(socket.IPPROTO_TCP, socket.TCP_NODELAY, 1)
        self.link.settimeout(60)
        self.kept = b""

    def give(self, body):
        head = b"POST /http-bind HTTP/1.1\r\nHost: localhost\r\nContent-Length: %d\r\n\r\n" % len(body)
        self.link.sendall(head + body)

    def read(self):
        try:
            read = self.link.recv(65536)
        except ConnectionError:
            read = b""
        if not read:
            raise Gone
        self.kept += read

    def take(self):
        while b"\r\n\r\n" not in self.kept:
            self.read()
        head, _, self.kept = self.kept.partition(b"\r\n\r\n")
        length = int(re.search(rb"Content-Length: (\d+)", head)[1])
        while len(self.kept) < length:
            self.read()
        body, self.kept = self.kept[:length], self.kept[length:]
        return body

    def close(self):
        self.link.close()


class Session:
    def __init__(self, seed, turns):
        self.chance = random.Random(seed)
        self.turns = turns
        self.rid = self.chance.randrange(1, 10**6)
        self.count = 0

    def open(self):
        host = self.chance.choice(["echo.localhost", "echo.localhost", "room.localhost"])
        link = Link()
        link.give(f"<body rid='{self.rid}' to='{host}' wait='1' hold='2' ver='1.6' {NAMESPACE}/>".encode())
        self.sid = re.search(rb"sid='([^']*)'", link.take())[1].decode()
        link.close()

    def request(self, more=""):
        self.rid += 1
        stanzas = ""
        for _ in range(self.chance.randrange(4) if not more else 0):
            self.count += 1
            stanzas += f"<message id='m{self.count}'><body>{'x' * self.chance.randrange(200)}</body></message>"
        return f"<body rid='{self.rid}' sid='{self.sid}'{more} {NAMESPACE}>{stanzas}</body>".encode()

    def send(self, body):
        """Sends it, on a connection that may be lost and on a second one that may come too. The connection that is to be read."""
        while self.chance.random() < 0.2:
            lost = Link()
            lost.give(body)
            lost.close()
        link = Link()
        link.give(body)
        if self.chance.random() < 0.1:
            again = Link()
            again.give(body)
            link.close()
            link = again
        return link

    def answer(self, body, link):
        """The answer to it: what wasn't answered is sent again."""
        for _ in range(100):
            try:
                return link.take()
            except Gone:
                link.close()
                link = self.send(body)
        raise Gone

    def turn(self):
        bodies = [self.request() for _ in range(self.chance.randrange(1, 4))]
        order = list(bodies)
        if self.chance.random() < 0.5:
            self.chance.shuffle(order)
        links = {body: self.send(body) for body in order}
        for body in bodies:
            answer = self.answer(body, links[body])
            if b"type='terminate'" in answer:
                raise ValueError(re.search(rb"condition='([^']*)'", answer)[1].decode())

    def run(self):
        self.open()
        for _ in range(self.turns):
            self.turn()
        if self.chance.random() < 0.7:
            body = self.request(" type='terminate'")
            self.answer(body, self.send(body))


def storm(count, turns, seed):
    """Runs so many sessions. How many broke off."""
    broken = []

    def run(number):
        try:
            Session(seed * 1000 + number, turns).run()
        except (Gone, ValueError, OSError) as error:
            broken.append(str(error) or "no answer")

    threads = [threading.Thread(target=run, args=[number]) for number in range(count)]
    for it in threads:
        it.start()
    for it in threads:
        it.join()
    return broken


def audited(program, folder):
    """What the audit says of each trace, and how many lines and remarks there are."""
    outcomes, lines, remarks, held = collections.Counter(), 0, collections.Counter(), []
    for name in sorted(os.listdir(folder)):
        path = os.path.join(folder, name)
        assert stat.S_IMODE(os.stat(path).st_mode) == 0o600, path
        with open(path, "rb") as trace:
            text = trace.read()
        told = subprocess.run([program, "audit"], input=text, stdout=subprocess.PIPE, check=False).stdout.decode()
        outcomes[told.split(" ")[0]] += 1
        if told.startswith("yes"):
            held.append(text[:text.index(b"\nend\n") + 5].split(b"\n")[:-1])
        else:
            print(path, told.strip())
        lines += text.count(b"\n")
        for remark in re.findall(rb"^# (.*)$", text, re.MULTILINE):
            remarks[remark.decode()] += 1
    return outcomes, lines, remarks, held


def changed(program, traces, count, seed):
    """What the audit says of so many traces with one mistake. It says the same as plain_audit.py."""
    chance = random.Random(seed)
    outcomes = collections.Counter()
    for _ in range(count):
        _, _, lines = pair_to_trace.mutated(chance.choice(traces), chance)
        outcome = pair_to_trace.audit(program, lines)
        assert outcome == plain_audit.outcome_of(lines), (outcome, plain_audit.outcome_of(lines))
        outcomes[outcome.split(b" ")[0].decode()] += 1
    return outcomes


def main(program, count=40, turns=30, seed=1):
    folder = tempfile.mkdtemp(prefix="robelava_traces_")
    traces = os.path.join(folder, "traces")
    words = [program, "serve", "--port", str(PORT), "--until-eof", "--trace", traces]
    server = subprocess.Popen(words, stdin=subprocess.PIPE, stdout=subprocess.PIPE)
    try:
        server.stdout.readline()
        broken = storm(count, turns, seed)
    finally:
        server.stdin.close()
        status = server.wait(30)
    outcomes, lines, remarks, held = audited(program, traces)
    print(f"{count} sessions, of which {len(broken)} broke off: {dict(collections.Counter(broken))}; status {status}; {sum(outcomes.values())} traces of {lines} lines: {dict(outcomes)}, remarks {dict(remarks)}")
    print(f"with one mistake: {dict(changed(program, held, 300, seed))}")
    return 0 if set(outcomes) == {"yes"} else 1


if __name__ == "__main__":
    if len(sys.argv) < 2:
        sys.exit(__doc__)
    sys.exit(main(os.path.abspath(sys.argv[1]), *map(int, sys.argv[2:])))
