#!/usr/bin/env python3
"""What a line `at` of a drive script costs, over so many live sessions for none of which time has anything to do.

usage: at_ticks.py PROGRAM

Prints, in microseconds of processor time a line, what 100,000 lines `at` cost with no session, with one and with 256: the least of three runs, less
that of the same script without these lines.
"""
import resource
import subprocess
import sys

LINES = 100_000
RUNS = 3
NAMESPACE = "http://jabber.org/protocol/httpbind"


def script(sessions, lines):
    """So many sessions, each with a request that waits for 60 seconds, and then so many lines `at`."""
    yield "host example.org <stream:features/>"
    for number in range(1, sessions + 1):
        yield f"post {number} <body rid='1000' to='example.org' wait='60' hold='1' ver='1.6' xmlns='{NAMESPACE}'/>"
        yield f"post {number} <body rid='1001' sid='s{number}' xmlns='{NAMESPACE}'/>"
    for line in range(lines):
        yield f"at {1 + line * 20_000 // LINES}"
    yield "end"


def spent(program, text):
    """The processor time of a run, in seconds."""
    before = resource.getrusage(resource.RUSAGE_CHILDREN)
    subprocess.run([program, "drive"], input=text, stdout=subprocess.DEVNULL, check=True)
    after = resource.getrusage(resource.RUSAGE_CHILDREN)
    return after.ru_utime - before.ru_utime + after.ru_stime - before.ru_stime


def main(program):
    for sessions in (0, 1, 256):
        texts = ["\n".join([*script(sessions, lines), ""]).encode() for lines in (LINES, 0)]
        with_lines, without = (min(spent(program, text) for _ in range(RUNS)) for text in texts)
        print(f"{sessions} sessions: {(with_lines - without) / LINES * 1e6:.2f} us a line", flush=True)


if __name__ == "__main__":
    main(sys.argv[1])
