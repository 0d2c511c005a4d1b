#!/usr/bin/env python3
"""Tries the edits of a crate that the gate doesn't try, those of its folder aside/: each turns what a function means, and the check has
to refuse it. Edits of different functions are tried together, in one copy of the crate.

usage: tools/edits.py [--list] [--passes] [--hidden] [CRATE..]      at the top; no CRATE: each crate that has such edits
       --list: only whether they still apply
       --passes: the edits of the folder passes/, each of which the check still lets through, for the reason in its first line
       --hidden: those of the folder hidden/, each of which names what it can't see, so that it isn't even compiled

It begins with what `rt check` kept in the crate's out/, so run that first. Its last line counts; the status is 1 where an edit is still
proved (with --passes: is refused by now), can't be applied, or came to nothing.
"""
import os
import re
import shutil
import subprocess
import sys
import tempfile

PROVED = re.compile(r"^(?:fn|impl|struct|enum|trait) (\S+): proved")
HIDDEN = re.compile(r"error.*private")
ITEM = re.compile(r"^\s*(?:pub(?:\([a-z]+\))? )?(?:const )?fn (\w+)")


def read(path):
    with open(path, encoding="utf-8") as file:
        return file.read()


def pairs_of(edit):
    """The edit's changes, as (file, old text, new text)."""
    path, old, pairs = None, None, []
    for line in read(edit).split("\n"):
        if line.startswith("file: "):
            path = line[len("file: "):].strip()
        elif line.startswith("old: "):
            old = line[len("old: "):]
        elif line.startswith("new:"):
            pairs.append((path, old, line[len("new:"):].removeprefix(" ")))
    return pairs


class Edit:
    """An edit of a crate: what it changes, and in which functions."""

    def __init__(self, folder, path):
        self.folder, self.path, self.name = folder, path, os.path.basename(path).removesuffix(".edit")
        self.pairs, texts = pairs_of(path), {}
        self.places = {self.place(texts, *pair) for pair in self.pairs}

    def place(self, texts, file, old, new):
        """The function in which the old text stands after earlier changes, as (file, name), or None where it doesn't stand there just once."""
        if file not in texts:
            texts[file] = read(f"{self.folder}/{file}") if os.path.isfile(f"{self.folder}/{file}") else ""
        text = texts[file]
        if text.count(old) != 1:
            return None
        texts[file] = text.replace(old, new)
        name = "?"
        for line in text[: text.index(old) + len(old.rstrip())].split("\n"):
            found = ITEM.match(line)
            name = found[1] if found else name
        return file, name

    def applies(self):
        return None not in self.places

    def functions(self):
        return {name for _, name in self.places}


def apply(edits, to):
    for edit in edits:
        for file, old, new in edit.pairs:
            text = read(f"{to}/{file}")
            with open(f"{to}/{file}", "w", encoding="utf-8") as out:
                out.write(text.replace(old, new, 1))


def groups(edits):
    """The edits in groups, no two of a group in a function of one name."""
    found = []
    for edit in edits:
        for group in found:
            if not any(edit.functions() & other.functions() for other in group):
                group.append(edit)
                break
        else:
            found.append([edit])
    return found


def check(folder, edits, words):
    """What the check of a copy of the crate with these edits says, over what the crate's own check kept."""
    with tempfile.TemporaryDirectory(prefix="edits-") as room:
        for part in ("src", "specs", "proofs"):
            if os.path.isdir(f"{folder}/{part}"):
                shutil.copytree(f"{folder}/{part}", f"{room}/{part}")
        apply(edits, room)
        kept = f"{folder}/out/incremental"
        more = []
        if os.path.isdir(kept):
            shutil.copytree(kept, f"{room}/kept")
            more = ["--incremental", f"{room}/kept"]
        ran = subprocess.run([*words, *more], cwd=room, stdin=subprocess.DEVNULL, stdout=subprocess.PIPE, stderr=subprocess.STDOUT, errors="replace")
        return ran.returncode, ran.stdout


def verdicts(folder, edits, words):
    """What each of the edits came to: 'refused', 'PROVED' or 'NOT TRIED'."""
    status, said = check(folder, edits, words)
    reached = "logic=not-proved" in said or "logic=proved" in said
    if not reached or (len(edits) > 1 and status == 0):
        if len(edits) == 1:
            return {edits[0]: "NOT TRIED"}
        return {edit: it for one in edits for edit, it in verdicts(folder, [one], words).items()}
    if len(edits) == 1:
        return {edits[0]: "refused" if status == 1 else "PROVED" if status == 0 else "NOT TRIED"}
    proved = {match[1].split("::")[-1] for match in map(PROVED.match, said.split("\n")) if match}
    told, alone = {}, []
    for edit in edits:
        # a function that is still proved may be another one of that name: such an edit is tried by itself
        if edit.functions() & proved:
            alone.append(edit)
        else:
            told[edit] = "refused"
    for edit in alone:
        told.update(verdicts(folder, [edit], words))
    return told


def hidden_verdict(folder, edit, words):
    """Whether an edit is refused since what it names is private."""
    _, said = check(folder, [edit], words)
    return "refused" if HIDDEN.search(said) else "NOT TRIED" if "error" in said else "COMPILED"


def tell(crate, told, counts):
    """Prints what edits came to, and counts it."""
    for edit, kind in told.items():
        counts[kind] = counts.get(kind, 0) + 1
        print(f"{crate}/{edit.name}: {kind}", flush=True)


def main(names):
    only_list, passes, hidden = "--list" in names, "--passes" in names, "--hidden" in names
    names = [it for it in names if it not in ("--list", "--passes", "--hidden")]
    top = os.getcwd()
    sys.path.insert(0, f"{top}/tools")
    from kept_libraries import kit

    rt = kit()
    rt.Crate.allowed = rt.handles_of(top)
    counts = {}
    for crate in rt.crates_of(top):
        aside = f"{crate.folder}/{'passes' if passes else 'hidden' if hidden else 'aside'}"
        if not os.path.isdir(aside) or (names and crate.name not in names):
            continue
        edits = [Edit(crate.folder, f"{aside}/{it}") for it in sorted(os.listdir(aside)) if it.endswith(".edit")]
        tell(crate.name, {edit: "DOESN'T APPLY" for edit in edits if not edit.applies()}, counts)
        applied = [edit for edit in edits if edit.applies()]
        if only_list:
            counts["applies"] = counts.get("applies", 0) + len(applied)
            continue
        if hidden:
            words = [rt.rtlib.RATTLE, "check", *crate.words(["--jobs", "1"], keeps=False), "--only", "nothing_at_all"]
            tell(crate.name, {edit: hidden_verdict(crate.folder, edit, words) for edit in applied}, counts)
            continue
        words = [rt.rtlib.RATTLE, "check", *crate.words(["--jobs", "1"], keeps=False)]
        for group in [[it] for it in applied] if passes else groups(applied):
            tell(crate.name, verdicts(crate.folder, group, words), counts)
    print(", ".join(f"{count} {kind}" for kind, count in sorted(counts.items())) or "no edits aside")
    return 0 if set(counts) <= {"applies", "PROVED" if passes else "refused"} else 1


if __name__ == "__main__":
    sys.exit(main(sys.argv[1:]))
