#!/usr/bin/env python3
"""How much a reader has to believe: how many definitions a definition rests on, itself among them, and how many lines these have.

usage: tools/rests_on.py [--list] CRATE.NAME..      at the top; several names: all of them together, after each alone
       --list: also says which, a line each: how many lines, and where

A definition rests on those that its text names, in its own file or by an import, and on what these rest on. It looks at names alone and reads no
types, and it doesn't count blank lines, comments, and what stands in std or in the kit's crates: an estimate. docs/READING.md has its figures.
"""
import os
import re
import sys

HEAD = re.compile(r"^\s*(?:pub\s+)?(?:abbrev|unfoldable|record|data)\s+(?:pub\s+)?([^\s:({]+)")
PLAIN = re.compile(r"^(?:pub\s+)?([A-Za-z_«][^\s:({]*)\s*:")
NAMES = re.compile(r"^\s*(?:pub )?use Rattle\.(\w+)\.specs\.([\w.]+?)\.\{([^}]*)\}", re.M)
MODULE = re.compile(r"^\s*(?:pub )?use Rattle\.(\w+)\.specs\.([\w.]+?)(?: as (\w+))?\s*$", re.M)
PASSED_OVER = re.compile(r"^\s*(?:--|$|(?:pub )?use |(?:pub )?mod |module |syntax )")
WORD = re.compile(r"(?:(\w+)\.)?([A-Za-z_][\w']*)")


def read(path):
    with open(path, encoding="utf-8") as file:
        return file.read()


def definitions(text):
    """The lines of each definition of a file, by its name. A line that begins none belongs to the one before it."""
    found, name = {}, None
    for line in text.split("\n"):
        if PASSED_OVER.match(line):
            continue
        head = HEAD.match(line) or PLAIN.match(line)
        if head:
            name = head[1]
        if name:
            found.setdefault(name, []).append(re.sub(r"\s--.*$", "", line))
    return found


class House:
    """All definitions of the repository, by crate, file and name, and what each file imports."""

    def __init__(self, top):
        self.lines, self.imports = {}, {}
        for crate in sorted(os.listdir(f"{top}/crates")):
            for at, _, names in os.walk(f"{top}/crates/{crate}/specs"):
                for name in names:
                    if name.endswith(".antt"):
                        self.add(crate, name.removesuffix(".antt"), read(f"{at}/{name}"))

    def add(self, crate, file, text):
        names = {}
        for other, module, items in NAMES.findall(text):
            for item in filter(None, (it.strip() for it in items.split(","))):
                name, _, alias = item.partition(" as ")
                names[(alias or name).strip()] = (other, module, name.strip())
        for other, module, alias in MODULE.findall(text):
            names[alias or module.split(".")[-1]] = (other, module, None)
        self.imports[crate, file] = names
        for name, lines in definitions(text).items():
            self.lines[crate, file, name] = lines

    def uses(self, place):
        """The definitions that one names."""
        crate, file, own = place
        names, found = self.imports[crate, file], set()
        for module, word in WORD.findall("\n".join(self.lines[place])):
            if module in names and names[module][2] is None:
                found.add((*names[module][:2], word))
            elif word != own:
                found |= {(crate, file, word), names.get(word, (None, None, None))}
        return found & self.lines.keys()

    def below(self, places):
        seen, left = set(places), list(places)
        while left:
            new = self.uses(left.pop()) - seen
            seen |= new
            left += new
        return seen

    def named(self, word):
        crate, _, name = word.partition(".")
        return [it for it in self.lines if it[0] == crate and it[2] == name]


def main(words):
    house, all_of = House("."), set()
    names = [it for it in words if it != "--list"]
    for word in names:
        places = house.named(word)
        if not places:
            print(f"{word}: no such definition")
            return 1
        below = house.below(places)
        all_of |= below
        print(f"{word}: {len(below)} definitions, {sum(len(house.lines[it]) for it in below)} lines")
    if len(names) > 1:
        print(f"together: {len(all_of)} definitions, {sum(len(house.lines[it]) for it in all_of)} lines")
    if "--list" in words:
        for crate, file, name in sorted(all_of):
            print(f"{len(house.lines[crate, file, name]):4} {crate}/specs/{file}.antt: {name}")
    return 0


if __name__ == "__main__":
    sys.exit(main(sys.argv[1:]))
