#!/usr/bin/env python3
"""Whether the example files for who runs a server are in order: each nginx.conf of examples/ by `nginx -t`, each unit by `systemd-analyze verify`,
and each option of `serve` stands in docs/OPERATING.md. What the machine has no program for is left out, and said so.

usage: tools/example_files.py
"""
import glob
import os
import re
import shutil
import subprocess
import sys
import tempfile

TOP = os.path.dirname(os.path.dirname(os.path.abspath(__file__)))


def said(words, folder):
    """What a program says that finds a fault; nothing where it finds none."""
    run = subprocess.run(words, cwd=folder, stdout=subprocess.PIPE, stderr=subprocess.STDOUT, check=False)
    return "" if run.returncode == 0 else run.stdout.decode()


def nginx_says(path):
    """A copy of the folder is tried, with a certificate where the file names one."""
    with tempfile.TemporaryDirectory() as folder:
        copy = os.path.join(folder, "copy")
        shutil.copytree(os.path.dirname(path), copy)
        if "ssl_certificate " in open(path).read():
            words = ["openssl", "req", "-x509", "-newkey", "rsa:2048", "-nodes", "-days", "1", "-subj", "/CN=localhost", "-keyout", "key.pem", "-out", "cert.pem"]
            fault = said(words, copy)
            if fault:
                return fault
        return said(["nginx", "-t", "-p", copy, "-c", "nginx.conf"], copy)


def unit_says(path):
    return said(["systemd-analyze", "verify", path], os.path.dirname(path))


def faults_of(program, paths, says):
    if shutil.which(program) is None:
        print(f"left out, since there is no {program}: {' '.join(os.path.relpath(path, TOP) for path in paths)}")
        return []
    return [f"{os.path.relpath(path, TOP)}: {fault}" for path in paths for fault in [says(path)] if fault]


def untold_options():
    """The options of `serve` that who runs a server isn't told of."""
    source = open(os.path.join(TOP, "crates/bosh_commands/src/options.rt")).read()
    names = re.findall(r"\b(?:usual|optional|switch)\(\s*alloc,\s*\"([a-z-]+)\"", source)
    assert len(names) > 10, names
    told = open(os.path.join(TOP, "docs/OPERATING.md")).read()
    return [f"--{name} isn't in docs/OPERATING.md" for name in names if f"| `--{name}` |" not in told]


def main():
    faults = untold_options()
    faults += faults_of("nginx", sorted(glob.glob(os.path.join(TOP, "examples/*/nginx.conf"))), nginx_says)
    faults += faults_of("systemd-analyze", sorted(glob.glob(os.path.join(TOP, "examples/*/*.service"))), unit_says)
    for fault in faults:
        print(fault)
    return 1 if faults else 0


if __name__ == "__main__":
    sys.exit(main())
