#!/usr/bin/env python3
"""Lists lemmas that say the same, where one of them could cite the other.

    bench/doubles.py            of all crates
    bench/doubles.py CRATE ..   those of which one is in such a crate
    bench/doubles.py --check    of all crates; ends with status 1 where there is one

Two lemmas say the same where their types are one text once bound names are left out of account, and each name that the
types cite is imported from one file. One could cite the other where its crate stands on the other's, or where both are of one
crate and the first's file doesn't come to the other's by its own imports. Where neither crate stands on the other, both could
cite one of a lower crate, the lowest with all that their types cite at hand: it is told behind the pair.
Lemmas within a module of a file are not looked at, nor answers. It reads the files alone, in some seconds.
"""
import re
import sys
from collections import defaultdict
from pathlib import Path

TOP = Path(__file__).resolve().parent.parent
USE = re.compile(r"^(?:pub )?use Rattle\.(\S+?)\.\{([^}]*)\}$")
ALIAS = re.compile(r"^use Rattle\.(\S+) as (\w+)$")
HEAD = re.compile(r"^(?:pub )?([^\s:(){}]+) :")
SHORTEST = 40


def bare(name):
    """A pattern for the name where it stands alone."""
    return rf"(?<![\w\-◌.]){re.escape(name)}(?![\w\-◌])"


def normal(text):
    """The type, with its bound names told by the order in which they come."""
    names = []
    for group in re.findall(r"[({]([^(){}:]+?) : ", text) + re.findall(r"λ ([a-z]\w*(?: [a-z]\w*)*)\.", text):
        names += [name for name in group.split() if re.match(r"[A-Za-z]\w*$", name) and name not in names]
    for place, name in enumerate(names):
        text = re.sub(bare(name), f"v{place}", text)
    return text


class File:
    """A file of lemmas: what it imports, and the type of each lemma."""

    def __init__(self, path):
        self.path = path
        self.crate, _, *inner = path.relative_to(TOP / "crates").with_suffix("").parts
        self.module = f"{self.crate}.proofs.{'.'.join(inner)}"
        self.imports, self.aliases, self.below, self.types, self.own = {}, {}, set(), {}, set()
        lines = path.read_text().split("\n")
        for at, line in enumerate(lines):
            if match := USE.match(line):
                self.below.add(match[1])
                self.imports |= {name.split(" as ")[-1]: match[1] for name in match[2].split(", ")}
            elif match := ALIAS.match(line):
                self.below.add(match[1])
                self.imports[match[2]] = self.aliases[match[2]] = match[1]
            elif match := re.match(r"^(?:abbrev |unfoldable |pub |record |data )*([^\s:(){}]+)[ :({]", line):
                self.own.add(match[1])
                if (head := HEAD.match(line)) and (end := self.end_of_type(lines, at, head[1])):
                    self.types[head[1]] = self.plain(" ".join(" ".join(lines[at:end]).split()).split(" : ", 1)[1])

    def plain(self, text):
        """The type, with the names that it cites by a module's other name cited alone, as if they were imported."""
        for alias, name in re.findall(r"(?<![\w.])(\w+)\.([^\s(){},;]+)", text):
            if alias in self.aliases and name not in self.imports.keys() | self.own:
                self.imports[name] = self.aliases[alias]
                text = re.sub(rf"(?<![\w.]){alias}\.{re.escape(name)}(?![\w\-◌])", name, text)
        return text

    @staticmethod
    def end_of_type(lines, at, name):
        for end in range(at + 1, min(at + 40, len(lines))):
            if re.match(rf"{re.escape(name)}(\s|$)", lines[end]) or lines[end].startswith("unfolding "):
                return end
            if not lines[end].startswith(" "):
                return None
        return None

    def source(self, name):
        where = self.imports.get(name, self.module if name in self.own else None)
        return "std" if where and where.startswith("std.") else where


def main():
    wanted = {*sys.argv[1:]} - {"--check"}
    stands_on = {}
    for line in (TOP / "crates.txt").read_text().split("\n"):
        crate, _, names = line.partition(":")
        stands_on[crate] = set(names.split())
    files = {}
    for path in sorted(TOP.glob("crates/*/proofs/*.antt")) + sorted(TOP.glob("crates/*/proofs/CommandTable/*.antt")):
        file = File(path)
        files[file.module] = file
    reached = {}

    def reaches(module):
        if module not in reached:
            reached[module] = set()
            for below in files[module].below & files.keys():
                reached[module] |= {below} | reaches(below)
        return reached[module]

    def may_cite(upper, lower):
        if upper.crate != lower.crate:
            return lower.crate in stands_on[upper.crate]
        return upper.module not in reaches(lower.module)

    def home(one, other, words):
        """The lowest crate below both that can have what both say."""
        cited = {source.split(".")[0] for source in map(one.source, words) if source} & stands_on.keys()
        below = [crate for crate in stands_on if crate in stands_on[one.crate] & stands_on[other.crate]]
        return next((crate for crate in below if cited <= stands_on[crate] | {crate}), None)

    same = defaultdict(list)
    for file in files.values():
        for name, text in file.types.items():
            if len(text) >= SHORTEST:
                same[normal(text)].append((file, name, text))
    count = 0
    for group in same.values():
        for at, (one, name, text) in enumerate(group):
            for other, its_name, _ in group[at + 1:]:
                if wanted and not {one.crate, other.crate} & wanted:
                    continue
                words = {word.split(".")[0] for word in re.findall(r"[^\s(){},;:\[\]\"λ]+", text)}
                if any(one.source(word) != other.source(word) for word in words if one.source(word) and other.source(word)):
                    continue
                if may_cite(other, one) or may_cite(one, other):
                    where = ""
                elif one.crate != other.crate and (lower := home(one, other, words)):
                    where = f", both above {lower}"
                else:
                    continue
                count += 1
                print(f"{one.module} {name}: {other.module} {its_name}{where}")
    print(f"{count} pairs")
    sys.exit(1 if count and "--check" in sys.argv[1:] else 0)


if __name__ == "__main__":
    main()
