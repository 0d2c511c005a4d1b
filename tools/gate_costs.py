#!/usr/bin/env python3
"""What a run of the gate costs, in processor minutes a crate: its proof, the proof of its tests, its edits (with the check that they begin with).

usage: tools/gate_costs.py [COMMAND..]      at the top; COMMAND: what is run and measured, `rt ci` where none is given (`rt ci --anew` proves
                                           all from nothing; what an earlier run on this machine passed costs nothing)
       tools/gate_costs.py --watch PID     measures while that process, begun elsewhere, runs

It looks at the processes of the prover once a second, those of the whole machine: let nothing else prove meanwhile.
"""
import os
import re
import subprocess
import sys
import time

TICKS = os.sysconf("SC_CLK_TCK")


def prover(pid):
    """The crate that a process of the prover is at, the kind of its work, and its processor seconds so far; None for another process."""
    try:
        with open(f"/proc/{pid}/cmdline", "rb") as file:
            words = file.read().decode(errors="replace").split("\0")
        if len(words) < 2 or os.path.basename(words[0]) != "rattle" or "--crate-name" not in words:
            return None
        cwd = os.readlink(f"/proc/{pid}/cwd")
        with open(f"/proc/{pid}/stat") as file:
            fields = file.read().rpartition(")")[2].split()
    except (OSError, IndexError):
        return None
    kind = "edits" if re.search(r"/rt-edits?-\d+-", cwd) else "tests" if "--test" in words else "proof"
    return words[words.index("--crate-name") + 1], kind, (int(fields[11]) + int(fields[12])) / TICKS


def look(seen):
    for pid in filter(str.isdigit, os.listdir("/proc")):
        found = prover(pid)
        if found:
            crate, kind, seconds = found
            seen[pid, crate, kind] = max(seconds, seen.get((pid, crate, kind), 0))


def table(seen):
    costs = {}
    for (_, crate, kind), seconds in seen.items():
        costs.setdefault(crate, {}).setdefault(kind, 0)
        costs[crate][kind] += seconds / 60
    kinds = ("proof", "tests", "edits")
    yield f"| {'crate':16} | proof | tests | edits |   all |"
    yield "|---|---|---|---|---|"
    for crate, cost in sorted(costs.items(), key=lambda it: -sum(it[1].values())):
        each = " | ".join(f"{cost.get(kind, 0):5.1f}" for kind in kinds)
        yield f"| {'`' + crate + '`':16} | {each} | {sum(cost.values()):5.1f} |"
    sums = [sum(cost.get(kind, 0) for cost in costs.values()) for kind in kinds]
    yield f"| {'**all**':16} | {' | '.join(f'{it:5.1f}' for it in sums)} | {sum(sums):5.1f} |"


def main(words):
    seen, status = {}, 0
    if words[:1] == ["--watch"]:
        while os.path.exists(f"/proc/{words[1]}"):
            look(seen)
            time.sleep(1)
    else:
        run = subprocess.Popen(words or ["rt", "ci"])
        while run.poll() is None:
            look(seen)
            time.sleep(1)
        status = run.returncode
    print("\n".join(table(seen)))
    return status


if __name__ == "__main__":
    sys.exit(main(sys.argv[1:]))
