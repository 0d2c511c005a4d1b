#!/usr/bin/env python3
"""What a running server keeps in memory: in one long session, over many short ones, and after thirty busy ones.

usage: serve_memory.py PROGRAM

Prints the resident memory of the process in kB, as Linux tells it, after so and so many messages, sessions or seconds.
"""
import http.client
import re
import socket
import subprocess
import sys
import threading
import time

CREATION = ("<body rid='1000' to='echo.localhost' wait='60' hold='1' ver='1.6' xmlns='http://jabber.org/protocol/httpbind' "
            "xmpp:version='1.0' xmlns:xmpp='urn:xmpp:xbosh'/>")


class Server:
    """A server of its own for each part, at a port that is free."""

    def __init__(self, program):
        with socket.socket() as free:
            free.bind(("127.0.0.1", 0))
            self.port = free.getsockname()[1]
        words = ["serve", "--port", str(self.port), "--workers", "32", "--journal-limit", str(1 << 40)]
        self.process = subprocess.Popen([program, *words], stdout=subprocess.PIPE)
        self.process.stdout.readline()

    def __enter__(self):
        return self

    def __exit__(self, *_):
        self.process.kill()
        self.process.wait()

    def resident(self):
        with open(f"/proc/{self.process.pid}/status", encoding="ascii") as status:
            return next(int(line.split()[1]) for line in status if line.startswith("VmRSS"))


class Session:
    """A session with the echo, over one connection at a time."""

    def __init__(self, server, connection=None):
        self.server = server
        self.connection = connection or self.connected()
        self.rid = 1000
        self.sid = re.search("sid='([^']*)'", self.posted(CREATION))[1]

    def connected(self):
        return http.client.HTTPConnection("127.0.0.1", self.server.port)

    def reconnect(self):
        self.connection.close()
        self.connection = self.connected()

    def posted(self, body):
        self.connection.request("POST", "/http-bind", body, {"Content-Type": "text/xml; charset=utf-8"})
        answer = self.connection.getresponse()
        text = answer.read().decode()
        if answer.status != 200 or "condition=" in text:
            sys.exit(f"answered {answer.status} {text}")
        return text

    def send(self, stanza="", more=""):
        self.rid += 1
        return self.posted(f"<body rid='{self.rid}' sid='{self.sid}'{more} xmlns='http://jabber.org/protocol/httpbind'>{stanza}</body>")

    def end(self):
        self.send(more=" type='terminate'")


def one_long_session(program, renewed):
    with Server(program) as server:
        session = Session(server)
        for sent in range(1, 100001):
            session.send(f"<message><body>number {sent}</body></message>")
            if renewed and sent % renewed == 0:
                session.reconnect()
            if sent in (100, 1000, 10000, 30000, 100000):
                print(f"  {sent:7} messages: {server.resident()} kB")


def many_sessions(program):
    with Server(program) as server:
        for opened in range(1, 100001):
            if opened % 200 == 1:
                connection = http.client.HTTPConnection("127.0.0.1", server.port)
            Session(server, connection).end()
            if opened in (100, 1000, 10000, 30000, 100000):
                print(f"  {opened:7} sessions: {server.resident()} kB")


def busy_sessions(program):
    with Server(program) as server:
        print(f"  at the start: {server.resident()} kB")

        def busy():
            session = Session(server)
            for _ in range(300):
                session.send(f"<message><body>{'x' * 20000}</body></message>")
            session.end()
            session.connection.close()

        threads = [threading.Thread(target=busy) for _ in range(30)]
        for thread in threads:
            thread.start()
        time.sleep(1)
        print(f"  while they run: {server.resident()} kB")
        for thread in threads:
            thread.join()
        time.sleep(1)
        print(f"  a second after the last has ended: {server.resident()} kB")


def main():
    if len(sys.argv) != 2:
        sys.exit(__doc__)
    program = sys.argv[1]
    print("a session of 100,000 messages, with a new connection each 1,000")
    one_long_session(program, 1000)
    print("the same over one connection")
    one_long_session(program, 0)
    print("100,000 sessions one after the other, 200 of them over one connection")
    many_sessions(program)
    print("thirty sessions at once, each with 300 messages of 20,000 bytes")
    busy_sessions(program)


if __name__ == "__main__":
    main()
