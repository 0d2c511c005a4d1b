#!/usr/bin/env python3
"""What `serve` costs a message: wall clock and the server's processor time, with 1, 10 and 30 busy sessions, with 60 parked ones beside
one that is busy, and where nothing happens. Each message is a request that waits until the echo of its stanza comes back.

Usage: serve_load.py PROGRAM [MESSAGES [WORDS..]]       WORDS: more words for `serve`, as --trace DIR
"""
import os
import re
import socket
import subprocess
import sys
import threading
import time

PORT = 47005
NAMESPACE = "xmlns='http://jabber.org/protocol/httpbind'"


class Session:
    """A session at the echo, on one connection of its own."""

    def __init__(self):
        self.link = socket.create_connection(("127.0.0.1", PORT))
        self.link.setsockopt(socket.IPPROTO_TCP, socket.TCP_NODELAY, 1)
        self.kept = b""
        self.rid = 1000
        self.give(f"<body rid='1000' to='echo.localhost' wait='60' hold='1' ver='1.6' {NAMESPACE}/>")
        self.sid = re.search(r"sid='([^']*)'", self.take())[1]

    def give(self, body):
        body = body.encode()
        self.link.sendall(b"POST /http-bind HTTP/1.1\r\nHost: localhost\r\nContent-Length: %d\r\n\r\n" % len(body) + body)

    def take(self):
        while b"\r\n\r\n" not in self.kept:
            self.read()
        head, _, self.kept = self.kept.partition(b"\r\n\r\n")
        length = int(re.search(rb"Content-Length: (\d+)", head)[1])
        while len(self.kept) < length:
            self.read()
        body, self.kept = self.kept[:length], self.kept[length:]
        return body.decode()

    def read(self):
        read = self.link.recv(65536)
        if not read:
            raise EOFError("the server closed the connection")
        self.kept += read

    def park(self):
        self.rid += 1
        self.give(f"<body rid='{self.rid}' sid='{self.sid}' {NAMESPACE}/>")

    def say(self):
        self.rid += 1
        self.give(f"<body rid='{self.rid}' sid='{self.sid}' {NAMESPACE}><message><body>hello</body></message></body>")
        if "hello" not in self.take():
            raise ValueError("no echo")

    def close(self):
        self.rid += 1
        self.give(f"<body rid='{self.rid}' sid='{self.sid}' type='terminate' {NAMESPACE}/>")
        self.take()
        self.link.close()


def processor_time(pid):
    """The seconds that the process has had of all processors."""
    with open(f"/proc/{pid}/stat") as it:
        fields = it.read().rpartition(")")[2].split()
    return (int(fields[11]) + int(fields[12])) / os.sysconf("SC_CLK_TCK")


def measure(pid, name, sessions, messages):
    """Has each session say so many messages, all sessions beside each other."""

    def talk(session):
        for _ in range(messages):
            session.say()

    threads = [threading.Thread(target=talk, args=[it]) for it in sessions]
    wall, busy = time.monotonic(), processor_time(pid)
    for it in threads:
        it.start()
    for it in threads:
        it.join()
    wall, busy = time.monotonic() - wall, processor_time(pid) - busy
    count = messages * len(sessions)
    print(f"{name}: {count} messages, {1e6 * wall / count:.0f} us of wall clock and {1e6 * busy / count:.0f} us of the server's processor time each")


def main(program, messages, *words):
    server = subprocess.Popen([program, "serve", "--port", str(PORT), "--workers", "8", *words], stdout=subprocess.PIPE)
    try:
        server.stdout.readline()
        for count in (1, 10, 30):
            sessions = [Session() for _ in range(count)]
            measure(server.pid, f"{count} sessions", sessions, messages // count)
            for it in sessions:
                it.close()
        parked, one = [Session() for _ in range(60)], Session()
        for it in parked:
            it.park()
        time.sleep(1)
        measure(server.pid, "1 session beside 60 parked ones", [one], messages // 4)
        busy = processor_time(server.pid)
        time.sleep(10)
        print(f"61 sessions to which nothing happens: {10 * (processor_time(server.pid) - busy):.1f} percent of a processor")
    finally:
        server.kill()


if __name__ == "__main__":
    main(sys.argv[1], int(sys.argv[2]) if len(sys.argv) > 2 else 6000, *sys.argv[3:])
