#!/usr/bin/env python3
"""Tries the command `keep` of a built program over real files: the runs of examples/keep, of which each goes on with the file of the one
before it; a file that was cut at each of its bytes; and a run that was killed after each line of its report.

usage: tools/keep_runs.py PROGRAM [WORD ..]      the words before the program's own, as a loader
"""
import os
import subprocess
import sys
import tempfile

TOP = os.path.dirname(os.path.dirname(os.path.abspath(__file__)))
CREATION = "<body rid='1000' to='example.org' wait='60' hold='1' ver='1.6' xmlns='http://jabber.org/protocol/httpbind'/>"
HOST = "host example.org <stream:features/>\n"


def request(rid, content=""):
    return f"<body rid='{rid}' sid='s1' xmlns='http://jabber.org/protocol/httpbind'>{content}</body>"


FIRST = [HOST, f"post 1 {CREATION}\n", f"post 2 {request(1001, '<a/>')}\n", "back s1 <x/>\n", f"post 3 {request(1002, '<b/>')}\n", "back s1 <y/>\n"]
SECOND = [HOST, f"post 1 {request(1001, '<a/>')}\n", f"post 2 {request(1002, '<b/>')}\n", "end\n"]


def keep(program, file, script):
    ran = subprocess.run([*program, "keep", file], input="".join(script).encode(), stdout=subprocess.PIPE)
    return ran.returncode, ran.stdout.decode()


def runs_of_examples(program, room):
    """Each folder of examples/keep is one file: 1.script, 2.script and so on, each with its report."""
    wrong = []
    folder = f"{TOP}/examples/keep"
    for name in sorted(os.listdir(folder)):
        file = f"{room}/{name}"
        scripts = sorted(at for at in os.listdir(f"{folder}/{name}") if at.endswith(".script"))
        for script in scripts:
            at = f"{folder}/{name}/{script}"
            status, report = keep(program, file, [open(at).read()])
            wanted = open(f"{at}.stdout").read()
            wanted_status = int(open(f"{at}.status").read()) if os.path.exists(f"{at}.status") else 0
            if (status, report) != (wanted_status, wanted):
                wrong.append(f"{name}/{script}: status {status}\n{report}")
    return wrong


def known(program, room):
    """What the second script reports over the file of the first so many lines."""
    reports = []
    for count in range(len(FIRST) + 1):
        file = f"{room}/known-{count}"
        keep(program, file, FIRST[:count])
        status, report = keep(program, file, SECOND)
        assert status == 0, (count, status, report)
        reports.append(report)
    return reports


def ends_of_records(image):
    ends, at = [0], 0
    while image[at:at + 1] == b"\x01":
        at += 5 + int.from_bytes(image[at + 1:at + 5], "big")
        ends.append(at)
    return ends


def cuts(program, room, reports):
    """A file that was cut anywhere opens, and has a beginning of what it had; and so has one with a closed gate and other bytes behind a record."""
    file = f"{room}/whole"
    keep(program, file, FIRST)
    whole = open(file, "rb").read()
    ends = ends_of_records(whole)
    wrong = []
    images = [(length, whole[:length]) for length in range(len(whole) + 1)] + [(end, whole[:end] + b"\x00old bytes") for end in ends]
    by_records = {}
    for length, image in images:
        cut = f"{room}/cut"
        with open(cut, "wb") as it:
            it.write(image)
        status, report = keep(program, cut, SECOND)
        records = sum(1 for end in ends[1:] if end <= length)
        if status or by_records.setdefault(records, report) != report:
            wrong.append(f"cut at {length} of {len(whole)}: status {status}\n{report}")
    seen = [by_records[records] for records in sorted(by_records)]
    if [report for report in reports if report not in seen]:
        wrong.append("what a run leaves after some line is not among what is left of its file")
    return wrong, len(whole) + 1


def kills(program, room, reports):
    """The run is killed once so many lines of its report came; what was told has to be there again."""
    wrong = []
    for lines in range(1, 6):
        file = f"{room}/killed-{lines}"
        ran = subprocess.Popen([*program, "keep", file], stdin=subprocess.PIPE, stdout=subprocess.PIPE)
        ran.stdin.write("".join(FIRST).encode())
        ran.stdin.flush()
        got = [ran.stdout.readline() for _ in range(lines)]
        ran.kill()
        ran.wait()
        status, report = keep(program, file, SECOND)
        # the script's line whose report the last of these is part of
        count = [2, 3, 4, 5, 6][lines - 1]
        if status or report not in reports[count:] or b"" in got:
            wrong.append(f"killed after {lines} lines: status {status}\n{report}")
    return wrong


def main(program):
    with tempfile.TemporaryDirectory() as room:
        wrong = runs_of_examples(program, room)
        reports = known(program, room)
        wrong_cuts, lengths = cuts(program, room, reports)
        wrong += wrong_cuts
        wrong += kills(program, room, reports)
    for one in wrong:
        print(one)
    print(f"{lengths} lengths of a file, 5 kills, and the runs of examples/keep: {len(wrong)} wrong")
    return 1 if wrong else 0


if __name__ == "__main__":
    sys.exit(main([*sys.argv[2:], sys.argv[1]] if len(sys.argv) > 2 else sys.argv[1:]))
