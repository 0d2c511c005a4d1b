#!/usr/bin/env python3
"""What many sessions cost `serve`: its threads and memory with so many sessions that have a request each that waits, its processor time in 20
seconds in which no wait falls due, and its processor time for a message where each goes to another of them.

A message is a request with a stanza on another connection: it ends the wait of the one that waits, is answered by the echo, and a next one waits.

Usage: serve_many.py PROGRAM [LOOPS [SESSIONS...]]
"""
import os
import random
import re
import resource
import socket
import statistics
import subprocess
import sys
import time

PORT = 47016
NAMESPACE = "xmlns='http://jabber.org/protocol/httpbind'"


class Link:
    """A connection on which requests are made and answers taken."""

    def __init__(self):
        self.link = socket.create_connection(("127.0.0.1", PORT))
        self.link.setsockopt(socket.IPPROTO_TCP, socket.TCP_NODELAY, 1)
        self.kept = b""

    def give(self, body):
        body = body.encode()
        self.link.sendall(b"POST /http-bind HTTP/1.1\r\nHost: localhost\r\nContent-Length: %d\r\n\r\n" % len(body) + body)

    def take(self):
        while b"\r\n\r\n" not in self.kept:
            self.read()
        head, _, self.kept = self.kept.partition(b"\r\n\r\n")
        length = int(re.search(rb"Content-Length: (\d+)", head)[1])
        while len(self.kept) < length:
            self.read()
        body, self.kept = self.kept[:length], self.kept[length:]
        return body.decode()

    def read(self):
        read = self.link.recv(65536)
        if not read:
            raise EOFError("the server closed the connection")
        self.kept += read


class Session:
    """A session at the echo, of which one request waits."""

    def __init__(self):
        self.link = Link()
        self.rid = 1000
        self.link.give(f"<body rid='1000' to='echo.localhost' wait='120' hold='1' ver='1.6' {NAMESPACE}/>")
        self.sid = re.search(r"sid='([^']*)'", self.link.take())[1]
        self.ask(self.link, "")

    def ask(self, link, content):
        self.rid += 1
        link.give(f"<body rid='{self.rid}' sid='{self.sid}' {NAMESPACE}>{content}</body>")

    def say(self, other):
        """Says something on another connection, where the echo comes, and lets a request wait again."""
        self.ask(other, "<message><body>hello</body></message>")
        self.link.take()
        if "hello" not in other.take():
            raise ValueError("no echo")
        self.ask(self.link, "")


def processor_time(pid):
    """The seconds that the process has had of all processors."""
    with open(f"/proc/{pid}/stat") as it:
        fields = it.read().rpartition(")")[2].split()
    return (int(fields[11]) + int(fields[12])) / os.sysconf("SC_CLK_TCK")


def status(pid, name):
    with open(f"/proc/{pid}/status") as it:
        return int(re.search(rf"{name}:\s*(\d+)", it.read())[1])


def measure(program, loops, count):
    words = [program, "serve", "--port", str(PORT), "--workers", str(loops), "--sessions", str(count)]
    server = subprocess.Popen(words, stdout=subprocess.PIPE)
    pid = server.pid
    try:
        server.stdout.readline()
        begun = time.monotonic()
        sessions = [Session() for _ in range(count)]
        opened = time.monotonic() - begun
        time.sleep(2)
        busy = processor_time(pid)
        time.sleep(20)
        share = 100 * (processor_time(pid) - busy) / 20
        print(
            f"{count} sessions, a request of each waits: {status(pid, 'Threads')} threads, {status(pid, 'VmRSS') / 1024:.1f} MiB,"
            f" {share:.2f} percent of a processor, opened in {opened:.1f} s",
            flush=True,
        )
        other, times = Link(), []
        messages = 5000
        busy = processor_time(pid)
        for _ in range(messages):
            begun = time.monotonic()
            random.choice(sessions).say(other)
            times.append(1000 * (time.monotonic() - begun))
        cost = 1e6 * (processor_time(pid) - busy) / messages
        times.sort()
        print(
            f"{count} sessions: {cost:.0f} us of processor time a message, {statistics.median(times):.2f} ms there and back,"
            f" 99 of 100 within {times[messages * 99 // 100]:.2f}",
            flush=True,
        )
        return cost
    finally:
        server.kill()
        server.wait()


def main(program, loops, counts):
    most = resource.getrlimit(resource.RLIMIT_NOFILE)[1]
    resource.setrlimit(resource.RLIMIT_NOFILE, (most, most))
    costs = [measure(program, loops, count) for count in counts]
    print(f"a message costs {costs[-1] / costs[0]:.2f} times as much with {counts[-1]} sessions as with {counts[0]}")


if __name__ == "__main__":
    main(sys.argv[1], int(sys.argv[2]) if len(sys.argv) > 2 else 8, [int(word) for word in sys.argv[3:]] or [10, 10000])
