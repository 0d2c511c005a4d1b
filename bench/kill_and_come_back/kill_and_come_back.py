#!/usr/bin/env python3
"""A server that keeps its sessions in a file is killed at random moments under load and started again with the same file. Each session sends
messages to an echo; what wasn't answered when the server died is sent again, as the same bytes, and so is the last request that was answered.

usage: kill_and_come_back.py PROGRAM [KILLS] [SESSIONS] [SEED]       100 kills, 30 sessions

It prints how many messages came back, and fails where one is doubled or out of order, where an answer that was given is given anew with other bytes,
where a session doesn't come back, or where a request that was answered isn't in the file at the end. The echo is in the server's memory: what it was
passed and had not given back when the server was killed is lost with it, at most one message of a session and a kill. Where something is wrong the file
is kept, and named.
"""
import os
import random
import re
import shutil
import socket
import subprocess
import sys
import tempfile
import threading
import time

PORT = 47019
NAMESPACE = "xmlns='http://jabber.org/protocol/httpbind'"


class Gone(Exception):
    """The connection was closed before an answer came."""


class Wrong(Exception):
    """What must not be."""


class Link:
    def __init__(self):
        try:
            self.link = socket.create_connection(("127.0.0.1", PORT))
        except OSError as error:
            raise Gone from error
        self.link.setsockopt(socket.IPPROTO_TCP, socket.TCP_NODELAY, 1)
        self.link.settimeout(60)
        self.kept = b""

    def ask(self, body):
        try:
            self.link.sendall(b"POST /http-bind HTTP/1.1\r\nHost: localhost\r\nContent-Length: %d\r\n\r\n" % len(body) + body)
        except OSError as error:
            raise Gone from error
        while b"\r\n\r\n" not in self.kept:
            self.read()
        head, _, self.kept = self.kept.partition(b"\r\n\r\n")
        length = int(re.search(rb"Content-Length: (\d+)", head)[1])
        while len(self.kept) < length:
            self.read()
        answer, self.kept = self.kept[:length], self.kept[length:]
        if b" 200 " not in head.split(b"\r\n")[0] + b" ":
            raise Wrong(head)
        return answer

    def read(self):
        try:
            read = self.link.recv(65536)
        except OSError as error:
            raise Gone from error
        if not read:
            raise Gone
        self.kept += read

    def close(self):
        self.link.close()


class Session:
    def __init__(self, number, stop):
        self.number = number
        self.stop = stop
        self.rid = 1000 * (number + 1)
        self.sid = None
        self.sent = 0
        self.got = []
        self.answered = None
        self.all_answered = set()
        self.link = None
        self.repeats = 0
        self.wrong = None

    def ask(self, body):
        """Asks until there is an answer, over a new connection each time that one is lost. Where the server came back, the last request that was
        answered is asked once more first."""
        while True:
            try:
                if self.link is None:
                    self.link = Link()
                    if self.answered is not None:
                        request, answer = self.answered
                        again = self.link.ask(request)
                        self.repeats += 1
                        if again != answer:
                            raise Wrong(f"session {self.number}: {request!r} was answered by {answer!r}, and then by {again!r}")
                answer = self.link.ask(body)
                self.answered = (body, answer)
                self.all_answered.add(self.rid)
                return answer
            except Gone:
                if self.link is not None:
                    self.link.close()
                    self.link = None
                time.sleep(0.02)

    def take(self, answer):
        if b"type='terminate'" in answer or b"type='error'" in answer:
            raise Wrong(f"session {self.number}: {answer!r}")
        for n in re.findall(rb"<message>(\d+)</message>", answer):
            if self.got and int(n) <= self.got[-1]:
                raise Wrong(f"session {self.number}: {int(n)} came after {self.got[-1]}")
            self.got.append(int(n))

    def run(self):
        try:
            creation = f"<body rid='{self.rid}' to='echo.localhost' wait='1' hold='1' ver='1.6' {NAMESPACE}/>".encode()
            # A creation that is lost has no name to be repeated by: it is made before the first kill.
            answer = self.ask(creation)
            self.sid = re.search(rb" sid='([^']*)'", answer)[1].decode()
            self.answered = None
            idle = 0
            while not self.stop.is_set() or idle < 2:
                idle = idle + 1 if self.stop.is_set() else 0
                self.rid += 1
                content = ""
                if not self.stop.is_set():
                    content = f"<message>{self.sent}</message>"
                    self.sent += 1
                self.take(self.ask(f"<body rid='{self.rid}' sid='{self.sid}' {NAMESPACE}>{content}</body>".encode()))
        except Exception as error:
            self.wrong = error


def arrived_in(file):
    """The ids of the requests in a file of journals, by the number of their session: a record is a 1, the length of its content, the session's number,
    the caller's, a kind (8 opens the session, 1 is an arrival), a moment, and for an arrival its body behind its length."""
    with open(file, "rb") as source:
        data = source.read()
    arrived, at = {}, 0
    while at + 5 <= len(data) and data[at] == 1:
        length = int.from_bytes(data[at + 1 : at + 5], "big")
        content = data[at + 5 : at + 5 + length]
        if len(content) < length:
            break
        if content[8] in (1, 8):
            rid = re.findall(rb"<body rid='(\d+)'", content)
            arrived.setdefault(int.from_bytes(content[:4], "big"), []).append(int(rid[0]))
        at += 5 + length
    return arrived


def start(program, file):
    server = subprocess.Popen([*program, "serve", "--port", str(PORT), "--journal", file, "--journal-limit", "1099511627776"], stdout=subprocess.PIPE)
    line = server.stdout.readline()
    if line != b"serving\n":
        raise Wrong(f"the server said {line!r}, and ended with {server.wait()}")
    return server


def main():
    program = sys.argv[1].split()
    kills = int(sys.argv[2]) if len(sys.argv) > 2 else 100
    count = int(sys.argv[3]) if len(sys.argv) > 3 else 30
    chance = random.Random(int(sys.argv[4]) if len(sys.argv) > 4 else 7)
    with tempfile.TemporaryDirectory() as room:
        file = os.path.join(room, "sessions.journal")
        server = start(program, file)
        stop = threading.Event()
        sessions = [Session(number, stop) for number in range(count)]
        threads = [threading.Thread(target=session.run) for session in sessions]
        for thread in threads:
            thread.start()
        while any(session.sid is None and session.wrong is None for session in sessions):
            time.sleep(0.01)
        begun = time.monotonic()
        down = 0.0
        for _ in range(kills):
            time.sleep(chance.uniform(0.05, 0.5))
            server.kill()
            server.wait()
            at = time.monotonic()
            server = start(program, file)
            down += time.monotonic() - at
            if any(session.wrong for session in sessions):
                break
        took = time.monotonic() - begun
        stop.set()
        for thread in threads:
            thread.join()
        size = os.path.getsize(file)
        server.terminate()
        server.wait()
        arrived = {rids[0]: set(rids) for rids in arrived_in(file).values()}
        wrong = [session.wrong for session in sessions if session.wrong]
        if wrong:
            print("the file:", shutil.copy(file, tempfile.mkdtemp()))
    kept = 0
    for session in sessions:
        lost = session.all_answered - arrived.get(1000 * (session.number + 1), set())
        kept += len(session.all_answered) - len(lost)
        if lost:
            wrong.append(Wrong(f"session {session.number}: {len(lost)} requests were answered and are not in the file, the first of them {min(lost)}"))
    for error in wrong:
        print(f"wrong: {error!r}")
    got = sum(len(session.got) for session in sessions)
    sent = sum(session.sent for session in sessions)
    repeats = sum(session.repeats for session in sessions)
    answered = sum(len(session.all_answered) for session in sessions)
    print(f"{kills} kills in {took:.1f} s, {1000 * down / kills:.0f} ms to come back; {answered} requests answered, {kept} of them in the file of {size} bytes; "
          f"{got} of {sent} messages back, {repeats} answers given again; {len(wrong)} wrong")
    return 1 if wrong or sent - got > kills * count else 0


if __name__ == "__main__":
    sys.exit(main())
