#!/usr/bin/env python3
"""What `serve` costs a stanza with a server of XMPP behind it, which is a thread of this script that gives each message back on its
stream: the server's processor time with 1 session, beside 255 silent ones, and with 64; how long a stanza takes from the write of the server
behind to the client's answer; and what 256 wires cost where nothing happens.

Usage: serve_xmpp.py PROGRAM [MESSAGES]
"""
import os
import re
import selectors
import socket
import subprocess
import sys
import threading
import time

PORT, BEHIND = 47006, 47007
NAMESPACE = "xmlns='http://jabber.org/protocol/httpbind'"
GREETING = b"<?xml version='1.0'?><stream:stream version='1.0' xmlns='jabber:client' xmlns:stream='http://etherx.jabber.org/streams'><stream:features/>"


class Behind(threading.Thread):
    """The server behind: greets each stream, gives each message back, and notes when."""

    def __init__(self):
        super().__init__(daemon=True)
        self.written = {}
        self.select = selectors.DefaultSelector()
        self.listener = socket.create_server(("127.0.0.1", BEHIND), backlog=512)
        self.select.register(self.listener, selectors.EVENT_READ)
        self.kept = {}

    def run(self):
        while True:
            for key, _ in self.select.select():
                if key.fileobj is self.listener:
                    link, _ = self.listener.accept()
                    link.setsockopt(socket.IPPROTO_TCP, socket.TCP_NODELAY, 1)
                    self.kept[link] = b""
                    self.select.register(link, selectors.EVENT_READ)
                else:
                    self.read(key.fileobj)

    def read(self, link):
        read = link.recv(65536)
        if not read:
            self.select.unregister(link)
            link.close()
            return
        kept = self.kept[link] + read
        if b"<stream:stream" in kept and b"streams'>" in kept:
            kept = kept.partition(b"streams'>")[2]
            link.sendall(GREETING)
        while b"</message>" in kept:
            message, _, kept = kept.partition(b"</message>")
            number = re.search(rb"<body>([^<]*)<", message)[1]
            self.written[number.decode()] = time.monotonic()
            link.sendall(message + b"</message>")
        if b"</stream:stream>" in kept:
            link.sendall(b"</stream:stream>")
            kept = b""
        self.kept[link] = kept


class Session:
    """A session at the server behind, on one connection of its own."""

    def __init__(self, behind, name):
        self.behind, self.name, self.said = behind, name, 0
        self.link = self.kept = None
        self.rid = 1000
        self.sid = re.search(r"sid='([^']*)'", self.ask(f"<body rid='1000' to='xmpp.localhost' wait='60' hold='1' ver='1.6' {NAMESPACE}/>"))[1]
        while "features" not in self.ask(self.next("")):
            pass
        self.waits = []

    def next(self, inner, more=""):
        self.rid += 1
        return f"<body rid='{self.rid}' sid='{self.sid}' {more}{NAMESPACE}>{inner}</body>"

    def ask(self, body):
        if self.link is None:
            self.link, self.kept = socket.create_connection(("127.0.0.1", PORT)), b""
            self.link.setsockopt(socket.IPPROTO_TCP, socket.TCP_NODELAY, 1)
        body = body.encode()
        self.link.sendall(b"POST /http-bind HTTP/1.1\r\nHost: localhost\r\nContent-Length: %d\r\n\r\n" % len(body) + body)
        while b"\r\n\r\n" not in self.kept:
            self.read()
        head, _, self.kept = self.kept.partition(b"\r\n\r\n")
        length = int(re.search(rb"Content-Length: (\d+)", head)[1])
        while len(self.kept) < length:
            self.read()
        answer, self.kept = self.kept[:length].decode(), self.kept[length:]
        return answer

    def read(self):
        read = self.link.recv(65536)
        if not read:
            raise EOFError("the manager closed the connection")
        self.kept += read

    def say(self):
        self.said += 1
        number = f"{self.name}.{self.said}"
        answer = self.ask(self.next(f"<message xmlns='jabber:client'><body>{number}</body></message>"))
        while number not in answer:
            answer = self.ask(self.next(""))
        self.waits.append(time.monotonic() - self.behind.written[number])

    def rest(self):
        """Lets go of its connection, and with that of the manager's thread."""
        self.link.close()
        self.link = None

    def close(self):
        self.ask(self.next("", "type='terminate' "))
        self.link.close()


def processor_time(pid):
    """The seconds that the process has had of all processors."""
    with open(f"/proc/{pid}/stat") as it:
        fields = it.read().rpartition(")")[2].split()
    return (int(fields[11]) + int(fields[12])) / os.sysconf("SC_CLK_TCK")


def measure(pid, name, sessions, messages):
    def talk(session):
        for _ in range(messages):
            session.say()

    for it in sessions:
        it.waits = []
    threads = [threading.Thread(target=talk, args=[it]) for it in sessions]
    busy = processor_time(pid)
    for it in threads:
        it.start()
    for it in threads:
        it.join()
    busy = processor_time(pid) - busy
    waits = sorted(wait for it in sessions for wait in it.waits)
    count = len(waits)
    print(f"{name}: {count} messages, {1e6 * busy / count:.0f} us of processor time each; from the write of the server behind to the answer "
          f"{1e3 * sum(waits) / count:.2f} ms in the mean, {1e3 * waits[count // 2]:.2f} in the middle, {1e3 * waits[count * 99 // 100]:.2f} for 99 of 100", flush=True)


def main(program, messages):
    behind = Behind()
    behind.start()
    server = subprocess.Popen([program, "serve", "--port", str(PORT), "--workers", "8", "--xmpp", "xmpp.localhost", "--xmpp-port", str(BEHIND)], stdout=subprocess.PIPE)
    try:
        server.stdout.readline()
        one = Session(behind, "one")
        measure(server.pid, "1 session", [one], messages)
        silent = []
        for number in range(255):
            silent.append(Session(behind, f"silent{number}"))
            silent[-1].rest()
        measure(server.pid, "1 session beside 255 silent wires", [one], messages)
        one.rest()
        busy = processor_time(server.pid)
        time.sleep(10)
        print(f"256 wires on which nothing happens: {10 * (processor_time(server.pid) - busy):.1f} percent of a processor", flush=True)
        one.close()
        time.sleep(30)
        many = [Session(behind, f"many{number}") for number in range(64)]
        measure(server.pid, "64 sessions", many, messages // 64)
    finally:
        server.kill()


if __name__ == "__main__":
    main(sys.argv[1], int(sys.argv[2]) if len(sys.argv) > 2 else 3000)
