#!/usr/bin/env python3
"""Gives each crate of a checkout the library that `rt ci` proved and kept of it on this machine, so that `rt check` there begins with the
crate at hand and not with those below it. It changes only `crates/*/out`, and no verdict rests on it.

usage: tools/kept_libraries.py [TOP]      TOP: a folder with crates.txt, HANDLES and crates/, else the current one
"""
import importlib.machinery
import importlib.util
import os
import shutil
import sys


def kit():
    """The kit's command as a module: it knows how the entries are named."""
    path = os.path.realpath(shutil.which("rt"))
    loader = importlib.machinery.SourceFileLoader("rt_command", path)
    module = importlib.util.module_from_spec(importlib.util.spec_from_loader("rt_command", loader))
    sys.modules["rt_command"] = module
    loader.exec_module(module)
    return module


def lowest_first(crates):
    order = []

    def visit(crate):
        for below in crate.below():
            visit(below)
        if crate not in order:
            order.append(crate)

    for crate in crates:
        visit(crate)
    return order


def take(kept, crate):
    """Whether the crate has the library that was kept of its files over those that were taken."""
    out = f"{crate.folder}/out"
    key, given = kept.key(crate), f"{out}/rlib/kept-as"
    if not (os.path.isfile(given) and open(given).read() == key and crate.is_built()):
        if not os.path.isdir(kept.place(crate, False, key)):
            return False
        shutil.rmtree(f"{out}/rlib", ignore_errors=True)
        os.makedirs(out, exist_ok=True)
        if not kept.give(crate, False, key):
            return False
        with open(f"{out}/rlib/stamp", "w") as stamp, open(given, "w") as mark:
            stamp.write(crate.stamp())
            mark.write(key)
    kept.is_built(crate)
    return True


def main(top):
    os.chdir(top)
    rt = kit()
    rt.Crate.allowed = rt.handles_of(os.getcwd())
    crates = rt.crates_of(os.getcwd())
    kept, taken, lacking = rt.Kept(crates), [], []
    for crate in lowest_first(crates):
        if crate.is_program:
            continue
        is_taken = not any(below.name in lacking for below in crate.below()) and take(kept, crate)
        (taken if is_taken else lacking).append(crate.name)
    print("taken:", *taken)
    print("not kept:", *lacking)


if __name__ == "__main__":
    main(sys.argv[1] if len(sys.argv) > 1 else ".")
