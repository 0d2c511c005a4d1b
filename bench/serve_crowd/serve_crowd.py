#!/usr/bin/env python3
"""What a crowd costs `serve`: its threads, its memory and its processor time with 256 sessions that have two parked requests each, what a
message costs beside them, how long it takes, also beside slow and silent connections, and how soon somebody is served beside a thousand
connections that say nothing.

Usage: serve_crowd.py PROGRAM [LOOPS]
"""
import os
import re
import resource
import socket
import statistics
import subprocess
import sys
import threading
import time

PORT = 47006
NAMESPACE = "xmlns='http://jabber.org/protocol/httpbind'"


class Link:
    """A connection on which requests are made and answers taken."""

    def __init__(self):
        self.link = socket.create_connection(("127.0.0.1", PORT))
        self.link.setsockopt(socket.IPPROTO_TCP, socket.TCP_NODELAY, 1)
        self.kept = b""

    def give(self, body):
        body = body.encode()
        self.link.sendall(b"POST /http-bind HTTP/1.1\r\nHost: localhost\r\nContent-Length: %d\r\n\r\n" % len(body) + body)

    def take(self):
        while b"\r\n\r\n" not in self.kept:
            self.read()
        head, _, self.kept = self.kept.partition(b"\r\n\r\n")
        length = int(re.search(rb"Content-Length: (\d+)", head)[1])
        while len(self.kept) < length:
            self.read()
        body, self.kept = self.kept[:length], self.kept[length:]
        return body.decode()

    def read(self):
        read = self.link.recv(65536)
        if not read:
            raise EOFError("the server closed the connection")
        self.kept += read


class Session:
    """A session at the echo that holds so many requests."""

    def __init__(self, hold):
        self.links = [Link() for _ in range(hold)]
        self.rid = 1000
        self.links[0].give(f"<body rid='1000' to='echo.localhost' wait='60' hold='{hold}' ver='1.6' {NAMESPACE}/>")
        self.sid = re.search(r"sid='([^']*)'", self.links[0].take())[1]

    def ask(self, link, content="", more=""):
        self.rid += 1
        link.give(f"<body rid='{self.rid}' sid='{self.sid}' {more}{NAMESPACE}>{content}</body>")

    def park(self):
        for link in self.links:
            self.ask(link)

    def say(self):
        self.ask(self.links[0], "<message><body>hello</body></message>")
        if "hello" not in self.links[0].take():
            raise ValueError("no echo")


def processor_time(pid):
    """The seconds that the process has had of all processors."""
    with open(f"/proc/{pid}/stat") as it:
        fields = it.read().rpartition(")")[2].split()
    return (int(fields[11]) + int(fields[12])) / os.sysconf("SC_CLK_TCK")


def status(pid, name):
    with open(f"/proc/{pid}/status") as it:
        return int(re.search(rf"{name}:\s*(\d+)", it.read())[1])


def idle(pid, name, seconds=20):
    """What the process costs while nothing happens."""
    busy = processor_time(pid)
    time.sleep(seconds)
    share = 100 * (processor_time(pid) - busy) / seconds
    print(f"{name}: {status(pid, 'Threads')} threads, {status(pid, 'VmRSS') / 1024:.1f} MiB, {share:.2f} percent of a processor", flush=True)


def talk(pid, name, session, messages, pause=0.0):
    """What each of so many messages costs, and how long it takes there and back."""
    busy, times = processor_time(pid), []
    for _ in range(messages):
        begun = time.monotonic()
        session.say()
        times.append(1000 * (time.monotonic() - begun))
        time.sleep(pause)
    cost = 1e6 * (processor_time(pid) - busy) / messages
    times.sort()
    print(
        f"{name}: {cost:.0f} us of processor time a message, {statistics.median(times):.2f} ms there and back,"
        f" 99 of 100 within {times[messages * 99 // 100]:.2f}",
        flush=True,
    )


def dribble(links, over):
    """Gives a byte of a head each second on each of these."""
    head = b"POST /http-bind HTTP/1.1\r\nHost: " + b"a" * 4000
    for byte in head:
        if over.wait(1):
            return
        for link in links:
            try:
                link.sendall(bytes([byte]))
            except OSError:
                pass


def raw():
    return socket.create_connection(("127.0.0.1", PORT))


def main(program, loops):
    most = resource.getrlimit(resource.RLIMIT_NOFILE)[1]
    resource.setrlimit(resource.RLIMIT_NOFILE, (most, most))
    server = subprocess.Popen([program, "serve", "--port", str(PORT), "--workers", str(loops)], stdout=subprocess.PIPE)
    pid = server.pid
    try:
        server.stdout.readline()
        idle(pid, f"{loops} loops and nobody", 5)
        one = Session(1)
        talk(pid, "1 session", one, 3000)
        crowd = [Session(2) for _ in range(255)]
        talk(pid, "1 session beside 255 that asked for nothing yet", one, 3000)
        for it in crowd:
            it.park()
        time.sleep(1)
        talk(pid, "1 session beside 510 parked requests", one, 3000)
        idle(pid, "256 sessions, 510 parked requests")
        one.links = [Link()]  # the last one was idle for longer than the server waits
        talk(pid, "1 session at 200 messages a second beside them", one, 1000, 0.005)
        over = threading.Event()
        slow = [raw() for _ in range(100)]
        deaf = [raw() for _ in range(100)]
        for link in deaf:
            link.setsockopt(socket.SOL_SOCKET, socket.SO_RCVBUF, 4096)
            link.setblocking(False)
            try:
                link.sendall(b"GET /http-bind HTTP/1.1\r\nHost: localhost\r\n\r\n" * 2000)
            except OSError:
                pass
        threading.Thread(target=dribble, args=[slow, over], daemon=True).start()
        talk(pid, "the same beside 100 connections that give a byte a second and 100 that take nothing", one, 1000, 0.005)
        over.set()
        silent = [raw() for _ in range(1000)]
        begun = time.monotonic()
        link = Link()
        link.give(f"<body rid='7' sid='none' {NAMESPACE}/>")
        link.take()
        print(f"beside 1,000 connections opened at once that say nothing, somebody is served in {1000 * (time.monotonic() - begun):.1f} ms")
        silent += [raw() for _ in range(4000)]
        talk(pid, "the same beside 5,000 idle connections", one, 1000, 0.005)
        print(f"then: {status(pid, 'Threads')} threads, {status(pid, 'VmRSS') / 1024:.1f} MiB")
    finally:
        server.kill()


if __name__ == "__main__":
    main(sys.argv[1], int(sys.argv[2]) if len(sys.argv) > 2 else 8)
