#!/usr/bin/env python3
"""Sends what strangers send to a server that runs, over loopback, and compares what it gives with the rows of serve_rows.

usage: tools/strangers.py PROGRAM..     as tools/strangers.py ./robelava; it serves at port 5290

Each row goes on a connection of its own, once in one piece and once byte by byte; what a server gives before all came is enough, since it
closes then. A row is a line `stranger BYTES` of crates/serve_rows/stdin, and what it is given the same line of stdout.
"""
import ast
import os
import re
import socket
import subprocess
import sys
import time

TOP = os.path.dirname(os.path.dirname(os.path.abspath(__file__)))
PORT = 5290


def bytes_of(row):
    """The bytes that a row writes."""
    def often(match):
        return match.group(2) * int(match.group(1))
    text = re.sub(r"\\\{(\d+)\*(.*?)\\\}", often, row)
    text = text.replace("\\n", "\n").replace("\\r", "\r").replace("\\t", "\t")
    pieces = re.split(r"\\x([0-9a-f]{2})", text)
    out = pieces[0].encode()
    for code, rest in zip(pieces[1::2], pieces[2::2]):
        out += bytes([int(code, 16)]) + rest.encode()
    return out


def given_to(data, piece):
    """What the server gives to these bytes in such pieces until it closes, or until the client says that no more come."""
    link = socket.create_connection(("127.0.0.1", PORT), timeout=20)
    link.setsockopt(socket.IPPROTO_TCP, socket.TCP_NODELAY, 1)
    try:
        for at in range(0, len(data), piece):
            link.sendall(data[at:at + piece])
        link.shutdown(socket.SHUT_WR)
    except OSError:
        pass
    out = b""
    while True:
        try:
            more = link.recv(65536)
        except ConnectionResetError:
            break
        if not more:
            break
        out += more
    link.close()
    return out


def rows():
    folder = f"{TOP}/crates/serve_rows"
    for row, told in zip(open(f"{folder}/stdin", newline="\n"), open(f"{folder}/stdout", newline="\n")):
        if row.startswith("stranger "):
            text = told[:told.rindex(" ")]
            yield row[len("stranger "):-1], ast.literal_eval("b" + text)


def main(program):
    server = subprocess.Popen(program + ["serve", "--port", str(PORT), "--workers", "8", "--until-eof"],
                              stdin=subprocess.PIPE, stdout=subprocess.PIPE)
    if server.stdout.readline() != b"serving\n":
        return 1
    begun, count, wrong = time.time(), 0, 0
    for row, wanted in rows():
        data = bytes_of(row)
        for piece in (1 << 20, 1):
            given = given_to(data, piece)
            count += 1
            if given != wanted:
                wrong += 1
                print(f"in pieces of {piece}: {row[:150]}\n  wanted {wanted[:150]}\n  given  {given[:150]}")
    server.stdin.close()
    status = server.wait()
    print(f"{count} connections, {wrong} otherwise, in {time.time() - begun:.1f} s; status {status}, {server.stdout.read()}")
    return 1 if wrong or status else 0


if __name__ == "__main__":
    sys.exit(main(sys.argv[1:] or [f"{TOP}/robelava"]))
