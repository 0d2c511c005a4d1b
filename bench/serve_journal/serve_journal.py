#!/usr/bin/env python3
"""What `serve --journal FILE` costs a message on a disk whose sync takes two milliseconds: the loads of serve_load.py, without a file, over one, and over
one whose syncs take so long. Each message is some four entries of the file, and takes two groups of them, each with two syncs.

Usage: serve_journal.py PROGRAM [MESSAGES]       needs a C compiler as `cc`
"""
import os
import subprocess
import sys
import tempfile

HERE = os.path.dirname(os.path.abspath(__file__))


def main():
    program, messages = sys.argv[1], sys.argv[2] if len(sys.argv) > 2 else "3000"
    load = [sys.executable, os.path.join(HERE, "..", "serve_load", "serve_load.py"), program, messages]
    with tempfile.TemporaryDirectory() as room:
        slow = os.path.join(room, "slow_sync.so")
        subprocess.run(["cc", "-shared", "-fPIC", "-O2", "-o", slow, os.path.join(HERE, "slow_sync.c"), "-ldl"], check=True)
        for name, words, more in (
            ("without a file", [], {}),
            ("over a file", ["--journal", os.path.join(room, "quick.journal")], {}),
            ("over a file whose syncs take 2 ms", ["--journal", os.path.join(room, "slow.journal")], {"LD_PRELOAD": slow}),
        ):
            print(name, flush=True)
            subprocess.run(load + words, env={**os.environ, **more}, check=True)


main()
