#!/usr/bin/env python3
"""Sessions at a server that writes a log and traces, whose connections are lost and whose requests come twice and out of order, and whether the
log's lines add up: by sessions, by the stanzas that the traces have, by its own counts, and by what was dropped.

usage: tools/log_storm.py PROGRAM [SESSIONS] [TURNS] [SEED]     PROGRAM runs the command `serve`: ./robelava, or one that does the same. 20 sessions
                                                                beside each other, of 30 turns each, where no other is said

The storm is that of tools/trace_storm.py. The server has a name, room for half as many sessions again, and a few more are tried at the end than
it takes, so that some are refused.
"""
import collections
import os
import re
import shlex
import subprocess
import sys
import tempfile
import time

import trace_storm

NAME = "storm-1"


def fields_of(line):
    """The fields of a line by their names. A value in quotes is one word."""
    return dict(word.split("=", 1) for word in shlex.split(line))


def carried_by(trace):
    """How many stanzas the trace of a session says that its back end was passed, and that it gave."""
    with open(trace, "rb") as lines:
        text = lines.read()
    told = text[:text.index(b"\nend\n") + 1].split(b"\n")
    gave = [line for line in told if line.startswith(b"gave ")]
    passed = [line for line in told if line.startswith(b"in ") and line != b"in restart"]
    # The first that a host gives is its greeting, which no back end gave.
    return len(passed), len(gave) - 1, b"\n# " in text


def refused(count):
    """Sessions that are opened one after the other until one is refused, and then so many more. How many were refused."""
    denied = 0
    link = trace_storm.Link()
    for rid in range(10**6):
        link.give(f"<body rid='{rid + 1}' to='echo.localhost' wait='1' hold='1' ver='1.6' {trace_storm.NAMESPACE}/>".encode())
        if b"undefined-condition" in link.take():
            denied += 1
            if denied == count:
                link.close()
                return denied
    return denied


def wait_for_ends(log):
    """Waits until each session that was opened has ended: those that said no goodbye are silent for 30 seconds."""
    for _ in range(120):
        with open(log) as text:
            lines = text.read()
        if lines.count(" event=opened ") == lines.count(" event=ended "):
            return
        time.sleep(1)


def check(lines, traces, sessions, denied):
    """What doesn't add up."""
    wrong = []
    told = collections.defaultdict(list)
    for line in lines:
        fields = fields_of(line)
        if not re.fullmatch(r"\d{4}-\d\d-\d\dT\d\d:\d\d:\d\d\.\d{3}Z", fields.get("at", "")):
            wrong.append(f"no moment: {line}")
        told[fields.get("event")].append(fields)
    opened = {fields["sid"]: fields for fields in told["opened"]}
    ended = {fields["sid"]: fields for fields in told["ended"]}
    if set(opened) != set(ended):
        wrong.append(f"{len(opened)} opened and {len(ended)} ended")
    if len(opened) < sessions:
        wrong.append(f"{len(opened)} opened, of {sessions}")
    for sid in opened:
        if not sid.startswith(NAME + "-"):
            wrong.append(f"not named: {sid}")
    compared = equal = 0
    for sid, fields in ended.items():
        path = os.path.join(traces, re.search(r"\d+$", sid)[0] + ".trace")
        if not os.path.exists(path):
            continue
        passed, gave, is_short = carried_by(path)
        if is_short:
            continue
        compared += 1
        told_in, told_out = int(fields["in"]), int(fields["out"])
        # A trace ends two seconds after the last answer of its session, whatever a busy server still passes on then; who is silent has none.
        may_be_short = not fields["ending"].startswith("silent")
        if (passed, gave) != (told_in, told_out) and not (may_be_short and passed <= told_in and gave <= told_out):
            wrong.append(f"{sid}: in {told_in} and out {told_out}, by its trace {passed} and {gave}")
        equal += (passed, gave) == (told_in, told_out)
    last = told["counts"][-1]
    for name, value in (("opened", len(opened)), ("ended", len(ended)), ("live", 0), ("connections", 0), ("parked", 0)):
        if int(last[name]) != value:
            wrong.append(f"{name}={last[name]} at the end, not {value}")
    by_limit = collections.Counter()
    for fields in told["refused"]:
        by_limit[fields["limit"]] += int(fields["count"])
    if by_limit["sessions"] != denied:
        wrong.append(f"refused at sessions: {by_limit['sessions']}, not {denied}")
    dropped = int(last["dropped"])
    if dropped * 1000 > len(lines):
        wrong.append(f"{dropped} lines dropped of {len(lines)}")
    endings = collections.Counter(" ".join(word for word in fields["ending"].split(" ") if not word.isdigit()) for fields in ended.values())
    print(f"{len(lines)} lines: {len(opened)} sessions opened and ended {dict(endings)}, of {compared} with a trace in and out are those of it in {equal}; "
          f"refused {dict(by_limit)} in {len(told['refused'])} lines; dropped {dropped}; requests {last['requests']}, memory {last['memory_kib']} KiB")
    return wrong


def main(program, sessions=20, turns=30, seed=1):
    folder = tempfile.mkdtemp(prefix="robelava_log_")
    traces, log = os.path.join(folder, "traces"), os.path.join(folder, "log")
    words = [program, "serve", "--port", str(trace_storm.PORT), "--until-eof", "--log", "--name", NAME, "--trace", traces, "--sessions", str(sessions + sessions // 2)]
    with open(log, "w") as errors:
        server = subprocess.Popen(words, stdin=subprocess.PIPE, stdout=subprocess.PIPE, stderr=errors)
        try:
            server.stdout.readline()
            broken = trace_storm.storm(sessions, turns, seed)
            denied = refused(50)
            wait_for_ends(log)
        finally:
            server.stdin.close()
            status = server.wait(30)
    with open(log) as text:
        lines = [line.rstrip("\n") for line in text if line.startswith("at=")]
    wrong = check(lines, traces, sessions, denied)
    print(f"{len(broken)} sessions broke off: {dict(collections.Counter(broken))}; status {status}")
    for it in wrong:
        print(f"WRONG: {it}")
    return 1 if wrong or status != 0 else 0


if __name__ == "__main__":
    if len(sys.argv) < 2:
        sys.exit(__doc__)
    sys.exit(main(os.path.abspath(sys.argv[1]), *map(int, sys.argv[2:])))
