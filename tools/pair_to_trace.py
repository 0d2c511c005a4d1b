#!/usr/bin/env python3
"""Traces for the command `audit`, from runs of the command `pair`.

usage: tools/pair_to_trace.py trace PROGRAM SCRIPT           writes the trace of the run of this script
       tools/pair_to_trace.py try PROGRAM [COUNT] [SEED]     makes runs, audits the trace of each and COUNT traces (1000) of which a line was
                                                             dropped, doubled or altered, or two exchanged, and says what came of them

PROGRAM runs the commands: ./robelava, or a program that does the same. Each audit is compared with plain_audit.py, which searches whole lists.
"""
import collections
import os
import random
import re
import subprocess
import sys

import plain_audit

# A line that is always refused, in one line of the report, and changes nothing: it marks where the lines of a script line end.
MARK = b"pause 0"
REFUSED = b"refused pause "


def run(program, command, lines):
    done = subprocess.run([program, command], input=b"".join(line + b"\n" for line in lines), stdout=subprocess.PIPE, check=False)
    return done.stdout.split(b"\n")[:-1], done.returncode


def told_of(program, lines):
    """The lines of the report without the last one, which tells where the script ended."""
    return run(program, "pair", lines)[0][:-1]


def refuses(program, lines, number):
    """Whether the `pause` that stands there is refused."""
    before, after = lines[:number], lines[:number + 1]
    return len(told_of(program, after)) > len(told_of(program, before))


def parts_of(program, lines):
    """What the report tells of each line of a script, from its third line on."""
    marked = list(lines[:2])
    for line in lines[2:]:
        marked += [line] if line == b"end" else [line, MARK]
    told = told_of(program, marked)
    parts = []
    for number in range(2, len(lines)):
        part = []
        if lines[number].startswith(b"pause ") and refuses(program, lines, number):
            part.append(told.pop(0))
        while told and not told[0].startswith(REFUSED):
            part.append(told.pop(0))
        if not told:
            parts.append(part)
            break
        told.pop(0)
        parts.append(part)
    return parts


class Trace:
    """What became of the lines of a script, as a trace."""

    def __init__(self, host):
        greeting = host.split(b" ", 2)
        self.greeting = plain_audit.stanzas_of(greeting[2]) if len(greeting) == 3 else []
        self.lines = []
        self.bodies = {}
        self.creation = None
        self.is_open = False
        self.answers = {}

    def tell(self, word, *rest):
        self.lines.append(b" ".join((word,) + rest))

    def arrive(self, rid):
        if rid == self.creation and not self.is_open:
            self.is_open = True
            for stanza in self.greeting:
                self.tell(b"gave", stanza)
        if self.is_open:
            self.tell(b"came", self.bodies[rid])

    def take(self, number):
        rid, body = self.answers[number]
        if not plain_audit.is_typed(body):
            self.tell(b"took", rid)

    def show(self, line):
        word, _, rest = line.partition(b" ")
        if word == b"req":
            rid, body = rest.split(b" ", 1)
            self.creation = self.creation or rid
            self.bodies[rid] = body
            self.tell(b"sent", body)
        elif word == b"in":
            self.tell(b"in", rest.split(b" ", 1)[1])
        elif word == b"ans":
            number, rid, body = rest.split(b" ", 2)
            self.answers[number] = (rid, body)
            self.tell(b"answer", rid, body)
        elif word == b"got":
            self.tell(b"got", rest)

    def add(self, line, told):
        word, _, rest = line.partition(b" ")
        refused = any(each.startswith((b"refused ", b"stale ", b"broken ")) for each in told)
        if word == b"carry":
            self.arrive(rest)
        elif word == b"give" and not refused:
            self.tell(b"gave", rest)
        elif word == b"return" and not refused:
            self.take(rest)
        for each in told:
            self.show(each)


def trace_of(program, lines):
    """The trace of the run of a script, up to the line that is bad, if one is."""
    trace = Trace(lines[0])
    for line, told in zip(lines[2:], parts_of(program, lines)):
        trace.add(line, told)
    return trace.lines + [b"end"]


class Run:
    """A script of two ends that talk, in the manner of `load`: it grows by what the report told of it."""

    def __init__(self, program, seed):
        self.program = program
        self.chance = random.Random(seed)
        self.count = 0
        self.moment = 0
        first = self.chance.randrange(1, 10**6)
        self.lines = [b"host load.example <stream:features/>", b"client %d 60 1 1 %d" % (first, self.chance.choice([0, 16]))]
        self.grow([b"send", b"carry %d" % first, b"return 1", b"put <message id='c0'/>", b"send"])

    def grow(self, lines):
        self.lines += lines
        self.told = told_of(self.program, self.lines)
        self.made = [line.split(b" ", 2)[1] for line in self.told if line.startswith(b"req ")]
        self.written = [line.split(b" ", 3)[1:3] for line in self.told if line.startswith(b"ans ")]

    def turn(self):
        kind = self.chance.randrange(10)
        self.count += 1
        if kind < 2:
            return b"put <message id='c%d'/>" % self.count
        if kind == 2:
            return b"give <message id='s%d'/>" % self.count
        if kind in (3, 4):
            return b"send"
        if kind in (5, 6):
            return b"carry " + self.chance.choice(self.made[-4:])
        if kind in (7, 8) and self.written:
            return b"return " + self.chance.choice(self.written[-4:])[0]
        self.moment += self.chance.randrange(4000)
        return b"at %d" % self.moment

    def talk(self, rounds):
        for _ in range(rounds):
            self.grow([self.turn() for _ in range(self.chance.randrange(10, 40))] + [b"send"])
        if self.chance.random() < 0.3:
            self.grow([b"stop", b"send"])
            self.lines += [b"carry " + rid for rid in self.made[-2:]]
        return self.lines + [b"end"]


def altered(line, chance):
    """The line with one byte of what follows its word altered."""
    start = line.find(b" ") + 1
    place = chance.randrange(start, len(line))
    other = chance.choice(b"abcdefgh0123456789<>/'= ")
    return line[:place] + bytes([other]) + line[place + 1:]


def mutated(lines, chance):
    """The name of what was done, which lines it concerns, and the lines after it."""
    kind = chance.choice(["dropped", "doubled", "altered", "exchanged"])
    place = chance.randrange(len(lines) - 1)
    here = lines[place]
    if kind == "dropped":
        return kind, [here], lines[:place] + lines[place + 1:]
    if kind == "doubled":
        other = min(len(lines) - 1, place + chance.choice([0, 0, 1, 2, 5]))
        return kind, [here], lines[:other] + [here] + lines[other:]
    if kind == "altered":
        return kind, [here], lines[:place] + [altered(here, chance)] + lines[place + 1:]
    other = min(len(lines) - 2, place + chance.choice([1, 1, 2, 3, 8]))
    changed = list(lines)
    changed[place], changed[other] = changed[other], changed[place]
    return kind, [here, lines[other]], changed


def audit(program, lines):
    told, status = run(program, "audit", lines)
    assert status == {b"yes": 0, b"no": 10, b"bad": 3}[told[0].split(b" ")[0]], (status, told)
    assert len(told) == 1, told
    return told[0]


def try_runs(program, count, seed):
    chance = random.Random(seed)
    traces = []
    for number in range(max(1, count // 40)):
        script = Run(program, seed * 1000 + number).talk(chance.randrange(2, 8))
        lines = trace_of(program, script)
        outcome = audit(program, lines)
        assert outcome == plain_audit.outcome_of(lines), (outcome, plain_audit.outcome_of(lines))
        assert outcome.startswith(b"yes "), (outcome, script)
        traces.append(lines)
    print(f"{len(traces)} runs, {sum(map(len, traces))} lines: each trace is a yes")
    tally = collections.Counter()
    for _ in range(count):
        lines = chance.choice(traces)
        kind, concerned, changed = mutated(lines, chance)
        outcome = audit(program, changed)
        assert outcome == plain_audit.outcome_of(changed), (kind, concerned, outcome, plain_audit.outcome_of(changed))
        word = outcome.split(b" ")[0].decode()
        reason = plain_audit.why_yes(kind, concerned, lines, changed) if word == "yes" else outcome.split(b" ")[2].decode()
        tally[(word, kind, reason)] += 1
    for word in ("yes", "no", "bad"):
        print(f"{sum(n for key, n in tally.items() if key[0] == word)} {word}")
        for (_, kind, reason), number in sorted(item for item in tally.items() if item[0][0] == word):
            print(f"    {number:4} {kind}: {reason}")


def main():
    words = sys.argv[1:]
    if len(words) == 3 and words[0] == "trace":
        with open(words[2], "rb") as script:
            lines = re.split(b"\n", script.read().rstrip(b"\n"))
        sys.stdout.buffer.write(b"".join(line + b"\n" for line in trace_of(words[1], lines)))
    elif len(words) in (2, 3, 4) and words[0] == "try":
        numbers = [int(word) for word in words[2:]] + [1000, 1][len(words) - 2:]
        try_runs(os.path.abspath(words[1]), *numbers)
    else:
        sys.exit(__doc__)


if __name__ == "__main__":
    main()
