#!/usr/bin/env python3
"""Counts what the statement of a public function reaches: who believes the statement has to have read these definitions.

    bench/statement.py                          the statement of run and run_ready, in the crate tape_cmd
    bench/statement.py --of tape_cmd:run        that of other functions, or one definition (Promises, tape_cmd:Promises)
    bench/statement.py --list                   each definition with its place
    bench/statement.py --why with_view          a shortest chain from the statement to a definition
    bench/statement.py --check --besides qic117_commands,drive_spec --crates 4 --files 45 --lines 4430

It begins with the names that the clauses of the functions cite, and follows each through the specs of the crates: a name
that a file defines or imports. Names of the kit's own libraries are not followed. Types of Rust that a definition or a
clause names are listed apart, with those that they are made of; private fields are not looked at. The lines of a definition
are those from its first to its last, with comments between them and without blank ones; the lines of a file are all that
it has.
"""
import argparse
import re
import sys
from collections import Counter, deque
from pathlib import Path

TOP = Path(__file__).resolve().parent.parent
START = ["tape_cmd:run", "tape_cmd:run_ready"]
KEYWORDS = r"(?:unfoldable |abbrev |pub |record |data |opaque |private )"
HEAD = re.compile(rf"^({KEYWORDS}*)([^\s:(){{}}]+)(?=[\s:({{])")
USE = re.compile(r"^(?:ghost |unfoldable |pub )*use (Rattle\.[^\s{;]+?)(?:\.\{([^}]*)\})?(?: as (\S+?))?;?$")
NAME = re.compile(r"[^\s(){}\[\],;]+")
RUST_ITEM = r"(?m)^(?:pub )?(?:struct|enum|trait|type|const) {}\b"


class Definition:
    """A definition of a spec file: its name, its lines, and the names that it uses."""

    def __init__(self, module, name, kind, line):
        self.module, self.name, self.kind, self.line = module, name, kind, line
        self.lines = []
        self.count = 0

    def place(self):
        return f"{self.module.path.relative_to(TOP)}:{self.line}"

    def key(self):
        return f"{self.module.crate}.{self.module.name}.{self.name}"

    def uses(self):
        return names_in(self.lines, self.name)


class RustType:
    """A type, trait or constant of Rust that a spec names: the lines that declare it, in its file."""

    def __init__(self, path, name):
        self.path, self.name = path, name
        self.line, self.lines, self.count = 1, [], 0
        lines = path.read_text().splitlines()
        for n, line in enumerate(lines):
            if re.match(RUST_ITEM.format(re.escape(name)), line):
                end = n
                while not re.search(r"[};]$", lines[end]) or lines[end].startswith(" "):
                    end += 1
                self.line = n + 1
                self.lines = [part for part in lines[n:end + 1] if not part.lstrip().startswith("//")]
                self.count = end + 1 - n
                break

    def place(self):
        return f"{self.path.relative_to(TOP)}:{self.line}"

    def key(self):
        return f"{self.path.relative_to(TOP)}:{self.name}"


class Names:
    """What names mean in a file: each by the module that it is imported from, and modules that have another name here."""

    def __init__(self):
        self.imported, self.modules = {}, {}

    def add(self, line):
        found = USE.match(line)
        if not found:
            return
        path, names, other = found.groups()
        if other:
            self.modules[other] = path
        for name in (names or "").split(","):
            name, _, alias = name.strip().partition(" as ")
            if name:
                self.imported[alias or name] = (path, name)


class Module(Names):
    """A spec file."""

    def __init__(self, crate, path):
        super().__init__()
        self.crate, self.path = crate, path
        self.name = ".".join(path.relative_to(TOP / "crates" / crate / "specs").with_suffix("").parts)
        self.text = path.read_text()
        self.definitions, self.parts = {}, {}
        self.read()

    def read(self):
        now, comments = None, 0
        for n, raw in enumerate(joined_uses(self.text), 1):
            line = re.sub(r"(^|\s)--(\s.*|$)", "", raw).rstrip()
            if not line:
                comments += bool(raw.strip())
                continue
            if re.match(r"^(?:unfoldable |pub )*use ", line):
                self.add(line)
                continue
            if re.match(r"^(?:pub )?mod ", line):
                continue
            head = HEAD.match(line)
            if head and (head[1] or re.match(r"\S+ :( |$)", line)):
                now, comments = Definition(self, head[2], head[1], n), 0
                self.definitions[now.name] = now
            elif head and head[2] in self.definitions:
                now = self.definitions[head[2]]
            if now:
                now.lines.append(line)
                now.count += 1 + comments
                comments = 0
                part = re.match(r"^  (?:pub )?(\S+) :( |$)", line)
                if part and "data" in now.kind:
                    self.parts[part[1]] = now


def joined_uses(text):
    """The lines of a file, with a use of several lines on the first of them."""
    lines = text.splitlines()
    at = 0
    while at < len(lines):
        line = lines[at]
        count = 1
        if re.match(r"^(?:ghost |unfoldable |pub )*use Rattle", line):
            while line.count("{") > line.count("}"):
                line += " " + lines[at + count].strip()
                count += 1
        yield line
        yield from [""] * (count - 1)
        at += count


def names_in(lines, own):
    """The names that a definition uses: all but those that it binds itself."""
    lines = [re.sub(r'"[^"]*"', '""', line) for line in lines]
    text = "\n".join(lines)
    bound = {own}
    bound.update(re.findall(r"\blet (\S+)", text))
    for group in re.findall(r"[({]((?:[^\s(){}:]+ )+):", text):
        bound.update(group.split())
    for group in re.findall(r"λ ([^.]*)\.(?:\s|$)", text):
        bound.update(NAME.findall(re.sub(r":[^)]*", "", group)))
    for line in lines:
        field = re.match(r"^\s+(?:pub )?(\S+) :( |$)", line)
        if field:
            bound.add(field[1])
        patterns = re.sub(r"\{\S+ = (\S+)\}", r"\1", line + " ").partition(" = ")
        if own and line.startswith(own + " ") and patterns[1]:
            bound.update(word for word in NAME.findall(patterns[0])[1:] if re.match(r"[a-z_][^.]*$", word))
    free = re.sub(r"([{;]\s*)[^\s(){};=]+ =(?=\s)", r"\1", text)
    found = set()
    for word in NAME.findall(free):
        word = word.rstrip(".")
        head = word.split(".")[0]
        if head and (head not in bound or "." in word):
            found.add(word)
    return found


class Tree:
    """All spec files of the repository's crates."""

    def __init__(self, traits):
        self.traits = traits
        lines = (TOP / "crates.txt").read_text().splitlines()
        self.crates = [line.split(":")[0].split()[0] for line in lines if ":" in line]
        self.modules = {}
        self.rust = {}
        self.missing = set()
        for crate in self.crates:
            for path in sorted((TOP / "crates" / crate / "specs").rglob("*.antt")):
                module = Module(crate, path)
                self.modules[f"Rattle.{crate}.specs.{module.name}"] = module

    def rust_type(self, crate, parts, name):
        source = TOP / "crates" / crate / "src"
        for path in [source.joinpath(*parts).with_suffix(".rt") if parts else None,
                     source.joinpath(*parts, "mod.rt"), source / "lib.rt", source / "main.rt"]:
            if path and path.is_file() and re.search(RUST_ITEM.format(re.escape(name)), path.read_text()):
                return self.rust.setdefault((path, name), RustType(path, name))
        return self.rust_anywhere(crate, name)

    def rust_anywhere(self, crate, name):
        for path in sorted((TOP / "crates" / crate / "src").rglob("*.rt")):
            if re.search(RUST_ITEM.format(re.escape(name)), path.read_text()):
                return self.rust.setdefault((path, name), RustType(path, name))
        return None

    def member(self, path, name):
        """What a name of the module of this path stands for: a definition, a type of Rust, or None for the kit's own."""
        crate = path.split(".")[1]
        if crate not in self.crates:
            return None
        if ".specs.declared." in path:
            # modules of Rust, then a type, and then what of it is meant; or the constants of a module
            parts = path.partition(".declared.")[2].split(".")
            modules = [part for part in parts if part[0].islower()]
            types = [part for part in parts if part not in modules and not part.startswith("The")]
            return self.rust_type(crate, modules, types[0] if types else name)
        module = self.modules.get(path)
        if module is None:
            self.missing.add(path)
            return None
        return self.resolve(module, name)

    def resolve(self, names, word):
        """What a word means in a file."""
        head, _, rest = word.partition(".")
        if rest and head in names.modules:
            return self.member(names.modules[head], rest.split(".")[0])
        if isinstance(names, Module):
            if head in names.definitions:
                return names.definitions[head]
            if head in names.parts:
                return names.parts[head]
        if head in names.imported:
            path, name = names.imported[head]
            return self.member(path, name)
        operator = f"◌{head}◌"
        if operator in names.imported:
            return self.member(*names.imported[operator])
        return None

    def uses(self, thing):
        if isinstance(thing, Definition):
            found = [self.resolve(thing.module, word) for word in sorted(thing.uses())]
        else:
            found = self.rust_uses(thing)
        return [other for other in dict.fromkeys(found) if other is not None and other is not thing]

    def rust_uses(self, thing):
        """The types that a type is made of, but for private fields; and what a trait's clauses cite, where that is asked."""
        if not thing.lines:
            return []
        first, rest = thing.lines[0], thing.lines[1:]
        if "trait " in first:
            return self.cited(thing.path, thing.lines) if self.traits else []
        text = first if "(" in first else ""
        for line in rest:
            if "enum " in first:
                text += re.sub(r"^ {4}\w+", "", line)
            elif line.startswith("    pub "):
                text += line
        return [self.rust_named(thing.path, word) for word in type_names(text)]

    def rust_named(self, path, name):
        """The type that a name stands for in a file of Rust."""
        crate = path.relative_to(TOP / "crates").parts[0]
        text = path.read_text()
        if re.search(RUST_ITEM.format(re.escape(name)), text):
            return self.rust.setdefault((path, name), RustType(path, name))
        for of, names in re.findall(r"(?ms)^use (\w+)::([^;]*);", text):
            if re.search(rf"\b{name}\b", names):
                of = crate if of in ("crate", "super", "self") else of
                return self.rust_anywhere(of, name) if of in self.crates else None
        return None

    def start(self, given):
        """What a public function's clauses cite, or the definitions of this name."""
        crate, _, name = given.rpartition(":")
        things = [module.definitions[name] for module in self.modules.values()
                  if name in module.definitions and crate in ("", module.crate)]
        for path in sorted((TOP / "crates").glob(f"{crate or '*'}/src/**/*.rt")):
            for signature in signatures(path, name):
                things += self.cited(path, signature)
        return things

    def cited(self, path, signature):
        """What the clauses of a function or a trait cite, and the types of Rust that it names."""
        names = rust_names(path)
        text = re.sub(r"\b(requires|ensures)( \w+)? \{", " ", "\n".join(signature))
        found = [self.resolve(names, word) for word in sorted(names_in(text.splitlines(), ""))]
        found += [self.rust_named(path, word) for word in type_names(text)]
        return [thing for thing in dict.fromkeys(found) if thing is not None]


def type_names(text):
    """The words of Rust that may be a type's."""
    return sorted(set(re.findall(r"(?<![\w.])[A-Z]\w+", text)))


def signatures(path, name):
    """The lines of each function of this name, up to its body."""
    lines = path.read_text().splitlines()
    for n, line in enumerate(lines):
        found = re.match(rf"( *)(?:pub )?fn {re.escape(name)}\b", line)
        if found:
            end = n
            while lines[end] != found[1] + "{" and not re.search(r"[^({] \{$|;$", lines[end]) and end + 1 < len(lines):
                end += 1
            yield lines[n:end + 1]


def rust_names(path):
    names = Names()
    for line in joined_uses(path.read_text()):
        names.add(line)
    return names


def follow(tree, first):
    """All that is reached, each with what it was reached from."""
    came = dict.fromkeys(first)
    waiting = deque(first)
    while waiting:
        thing = waiting.popleft()
        for other in tree.uses(thing):
            if other not in came:
                came[other] = thing
                waiting.append(other)
    return came


def lines_of(path):
    return len(path.read_text().splitlines())


def table(tree, reached, besides):
    """The crates and files with what is reached of them."""
    by_file = Counter()
    lines = Counter()
    for thing in reached:
        by_file[thing.module] += 1
        lines[thing.module] += thing.count
    for crate in tree.crates:
        modules = [module for module in by_file if module.crate == crate]
        if not modules:
            continue
        count = sum(by_file[module] for module in modules)
        of = sum(len(module.definitions) for module in tree.modules.values() if module.crate == crate)
        mark = ", counted apart" if crate in besides else ""
        print(f"{crate}: {count} of {of} definitions, {sum(lines[module] for module in modules)} lines, "
              f"in {len(modules)} files of {sum(lines_of(module.path) for module in modules)} lines{mark}")
        for module in sorted(modules, key=lambda module: module.name):
            print(f"    {module.name}: {by_file[module]} of {len(module.definitions)}, {lines[module]} lines "
                  f"of {lines_of(module.path)}")


def sums(things):
    files = {thing.module.path for thing in things}
    return (len(things), sum(thing.count for thing in things), len(files), sum(map(lines_of, files)),
            len({thing.module.crate for thing in things}))


def tell_sums(what, things):
    count, lines, files, file_lines, crates = sums(things)
    print(f"{what}: {count} definitions of {lines} lines, in {files} files of {file_lines} lines, of {crates} crates")


def why(tree, came, given):
    crate, _, name = given.rpartition(":")
    for thing in came:
        if thing.name == name and (not crate or (isinstance(thing, Definition) and thing.module.crate == crate)):
            chain = [thing]
            while came[chain[-1]] is not None:
                chain.append(came[chain[-1]])
            for n, link in enumerate(reversed(chain)):
                print(f"{'    ' * min(n, 1)}{link.name}  {link.place()}")
            return 0
    print(f"{given} is not reached")
    return 1


def main():
    parser = argparse.ArgumentParser(description=__doc__, formatter_class=argparse.RawDescriptionHelpFormatter)
    parser.add_argument("--of", action="append", metavar="CRATE:NAME", help="begin with these")
    parser.add_argument("--traits", action="store_true", help="follow what the clauses of the outside's traits cite, too")
    parser.add_argument("--list", action="store_true", help="each definition with its place")
    parser.add_argument("--why", metavar="NAME", help="how a definition is reached")
    parser.add_argument("--check", action="store_true", help="end with status 1 where a limit is passed")
    parser.add_argument("--besides", default="", metavar="CRATE,CRATE", help="crates that are counted apart")
    for limit in ("definitions", "definition-lines", "crates", "files", "lines"):
        parser.add_argument(f"--{limit}", type=int, metavar="MOST")
    options = parser.parse_args()
    tree = Tree(options.traits)
    first = []
    for given in options.of or START:
        things = tree.start(given)
        if not things:
            sys.exit(f"{given}: no function with a clause has this name, and no definition")
        first += [thing for thing in things if thing not in first]
    came = follow(tree, first)
    if options.why:
        sys.exit(why(tree, came, options.why))
    reached = [thing for thing in came if isinstance(thing, Definition)]
    types = [thing for thing in came if isinstance(thing, RustType)]
    besides = {crate for crate in options.besides.split(",") if crate}
    for crate in besides - set(tree.crates):
        sys.exit(f"{crate}: there is no such crate")
    if options.list:
        for thing in sorted(reached, key=lambda thing: (thing.module.crate, thing.module.name, thing.line)):
            print(f"{thing.place()}: {thing.name}, {thing.count} lines")
        for thing in sorted(types, key=lambda thing: (str(thing.path), thing.line)):
            print(f"{thing.place()}: {thing.name}, {thing.count} lines of Rust")
    elif not options.check:
        table(tree, reached, besides)
    for path in sorted(tree.missing):
        print(f"{path}: there is no such file, and nothing that it may define is counted", file=sys.stderr)
    print(f"types of Rust: {len(types)} of {sum(thing.count for thing in types)} lines, "
          f"in {len({thing.path for thing in types})} files")
    counted = [thing for thing in reached if thing.module.crate not in besides]
    if besides:
        tell_sums("counted apart", [thing for thing in reached if thing.module.crate in besides])
        tell_sums("besides", counted)
    tell_sums("all", reached)
    if options.check:
        values = dict(zip(("definitions", "definition_lines", "files", "lines", "crates"), sums(counted)))
        passed = {name: (value, getattr(options, name)) for name, value in values.items()
                  if getattr(options, name) is not None and value > getattr(options, name)}
        for name, (value, most) in passed.items():
            print(f"{name.replace('_', ' ')}: {value}, and {most} are the most")
        sys.exit(1 if passed else 0)


if __name__ == "__main__":
    main()
