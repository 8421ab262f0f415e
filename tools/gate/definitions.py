#!/usr/bin/env python3
"""definitions.py NAME .. [--list | --read] [--whole]
definitions.py --unreached

Prints on how many definitions of specs/ a statement stands, in how many files, and how many lines these have, and the
same of the types of src/: what is read to know what it says. A NAME is a definition, as
`lockstep_replay.specs.Acceptance.Accept`, or the contract of a function, as `commands::flowcheck`: all of its
`requires` and `ensures`. Of several names the last line says it of all together. `--list` names what is counted.
`--read` prints the files in an order in which they can be read, each behind those on which it stands as far as that can
be, with the lines to read in each, and for how many hours of reading all lines up to there are: 100 to 160 an hour.

It reads the crates of the folder in which it is called. A definition stands on what its signature and its body name,
and on what that names in turn. A name is what the `use` lines of its file bring, or what its file defines; bound names
are left out, and so is what std and the kit define. Each record, data type and function is one definition, of which a
variant is a part; a type of src/ counts where specs.declared names it, or a field of a type that counts. A definition
does not count itself. Lines are those of signature and body, comments inside with them and the one above left out.

A definition under a comment `-- read in its place: PATH` is known by that statement, which a clause of a public
function proves of it: its signature is one line, and in place of its body the statement is read. With `--whole` the
body counts and what it stands on.

With `--unreached` it lists instead the files of definitions on which no public contract of any crate stands, but for
those in a folder specs/Private/, and the files in such a folder on which one does; the status is 1 where there is any.
A public contract is that of a function, a method or a trait that a `pub use` of a crate's lib.rt names. Crates that are
programs have none, and are left out; Lib.antt and Private.antt are lists of modules."""
import argparse
import pathlib
import re
import sys

WORD = r"[A-Za-z_][\w']*(?:-[A-Za-z]\w*)*"
NAME = re.compile(rf"{WORD}(?:(?:\.|::){WORD})*|[^\s\w(){{}}\[\],;.\"'◌]+")
INSTEAD = re.compile(r"-- read in its place: (\S+)$")
HEAD = re.compile(r"(?:(?:abbrev|unfoldable|pub|record|data) )+(?!(?:use|mod) )([^\s:]+)|([\w'◌-]+) :")
USE = re.compile(r"^\s*(?:pub |ghost )*use ([\w.:]+?)(?:(?:\.|::)\{([^}]*)\}| as (\w+))?;?$", re.M)
TYPE = re.compile(r"(?:pub(?:\(crate\))? )?(?:struct|enum|trait|type) (\w+)")
FUNCTION = re.compile(r"(?ms)^pub (?:const )?fn (\w+)(.*?)^\{")
METHOD = re.compile(r"(?ms)^    pub (?:const )?fn (\w+)(.*?)^    \{")
BLOCK = re.compile(r"(?m)^(?:pub(?:\(crate\))? )?(impl\b[^{;]*|trait \w[^{;]*)\{")
OF_TRAIT = re.compile(r"(?s)ghost (?!use\b)\w+ = \{.*?\};|(?:requires|ensures)[^\n]*\{.*?\}\n")
SLOW, FAST = 100, 160  # lines an hour
GIVEN_OUT = re.compile(r"pub use ([\w:]+?)(?:::\{([^}]*)\})?;")


def bare(text):
    """A text without what strings and comments say."""
    return re.sub(r"(?m)(?:--|//).*$", "", re.sub(r'"(?:[^"\\\n]|\\.)*"', '""', text))


def clauses_of(head):
    """What a function requires and ensures, by what stands between its name and its body."""
    found = re.search(r"(?ms)^ *(?:requires|ensures)\b.*", head)
    return bare(found[0]) if found else ""


class Source:
    """A file: the first and last lines of the definitions in it, its variants, and what its `use` lines bring."""

    def __init__(self, path):
        self.crate, self.path, self.text = path.parts[1], path, path.read_text()
        self.lines, self.brings, self.variants, self.within = self.text.split("\n"), {}, {}, {}
        for whole, listed, other in USE.findall(bare(self.text)):
            module = whole.replace("::", ".").split(".")
            if not listed:
                self.brings[other or module[-1]] = module
            for one in filter(None, map(str.strip, listed.split(","))):
                name, _, other = one.partition(" as ")
                self.brings[other or name] = module + [name]
        self.heads = dict(self.definitions() if path.suffix == ".antt" else self.types())

    def outer_lines(self):
        """The lines as if what stands in an inner module stood outside, and the head of the module of each line."""
        outer, heads, head = [], [], ""
        for line in self.lines:
            head = line if line.startswith("module ") else head if line.startswith("  ") or not line else ""
            heads.append(head)
            outer.append(line[2:] if head and not line.startswith("module ") else line)
        return outer, heads

    def in_place_of(self, name):
        """The path of the statement that is read in place of a definition, if the comment above it names one."""
        above = self.heads[name][0] - 1
        found = INSTEAD.match(self.lines[above]) if above >= 0 else None
        return found and found[1]

    def definitions(self):
        """Each definition with its first line and the line behind its last."""
        outer, heads = self.outer_lines()
        parts = re.compile(r"--|use |pub mod|module |infix")
        edges = [n for n, line in enumerate(outer) if parts.match(line) or HEAD.match(line)]
        for first, end in zip(edges, edges[1:] + [len(outer)]):
            if head := HEAD.match(outer[first]):
                name, body = head[1] or head[2], "\n".join(outer[first:end]).rstrip()
                self.within[name] = heads[first]
                if " data " in outer[first]:
                    self.variants |= dict.fromkeys(re.findall(r"(?m)^  ([\w']+) :", body), name)
                yield name, (first, first + body.count("\n") + 1)

    def types(self):
        for first, line in enumerate(self.lines):
            if found := TYPE.match(line):
                ends = (n for n in range(first, len(self.lines)) if re.search(r"^\}|;$", self.lines[n]))
                yield found[1], (first, first + 1 if line.endswith("}") else next(ends) + 1)

    def text_of(self, name):
        """The text of a definition, behind the head of the module in which it stands, if it is an inner one."""
        return bare("\n".join([self.within.get(name, ""), *self.lines[slice(*self.heads[name])]]))

    def contracts(self):
        """The public functions that stand in no block, with their clauses."""
        return [(name, clauses_of(head)) for name, head in FUNCTION.findall(self.text)]

    def public_clauses(self, names):
        """The clauses of the functions, the methods and the traits that belong to one of these names."""
        yield from (clauses for name, clauses in self.contracts() if name in names)
        for block in BLOCK.finditer(self.text):
            if names.isdisjoint(re.findall(r"\w+", block[1])):
                continue
            body = self.text[block.end():].split("\n}", 1)[0]
            if block[1].startswith("trait") or " for " in block[1]:
                yield from map(bare, OF_TRAIT.findall(body))
            else:
                yield from (clauses_of(head) for _, head in METHOD.findall(body))


class Crates:
    """The definitions and types of all crates. One of them is a pair of its file and its name. Unless `in_place` is
    false, a statement that is read in place of a definition stands for it."""

    def __init__(self, in_place=True):
        self.in_place = in_place
        paths = [*pathlib.Path("crates").glob("*/specs/**/*.antt"), *pathlib.Path("crates").glob("*/src/**/*.rt")]
        self.sources, self.stands = {path: Source(path) for path in paths}, {}
        if not paths:
            sys.exit("no crates: this is not the top of the repository")

    def at(self, folder, parts):
        """What stands at a path: the longest part of it that is a file, and the name behind that."""
        for size in range(len(parts) - 1, 0, -1):
            for end in ".antt", ".rt":
                source = self.sources.get(folder.joinpath(*parts[:size]).with_suffix(end))
                name = re.sub(r"Ord$", "", parts[size]) if parts[-1] == "TheImpl" else parts[size]
                if source and (name in source.heads or name in source.variants):
                    return source, source.variants.get(name, name)
                if source and end == ".rt" and name in source.brings:
                    return self.brought(source.crate, source.brings[name])
        return None

    def brought(self, crate, parts):
        """What a path names that stands in a file of a crate; None for std, the kit and whole modules."""
        if parts[0] == "Rattle":
            own = parts[3:4] in (["declared"], ["contracts"])
            return self.at(pathlib.Path("crates", parts[1], "src" if own else "specs"), parts[4 if own else 3:])
        if parts[0] == "crate":
            return self.at(pathlib.Path("crates", crate, "src"), parts[1:])
        return self.at(pathlib.Path("crates", parts[0], "src"), ["lib", *parts[1:]])

    def named(self, source, text):
        """The definitions and types that a text of a file names."""
        binders = re.findall(r"[\w' -]+ :(?!:)|λ [\w' -]+\.|\w+ ←|\w+ = ", text)
        if source.path.suffix == ".antt":
            binders += re.findall(r"(?m)^(?!abbrev|pub|unfoldable)\S[^=]*(?==)", text)
        bound = set(re.findall(r"[\w'-]+", " ".join(binders)))
        for word in NAME.findall(text):
            parts = re.split(r"\.|::", word)
            name = parts[0] if re.match(r"\w", parts[0]) else f"◌{parts[0]}◌"
            if name in bound and not name[0].isupper():
                continue
            if name in source.brings:
                path = source.brings[name]
                found = self.brought(source.crate, path) or self.brought(source.crate, path + parts[1:2])
                yield from [found] if found else []
            elif name in source.heads or name in source.variants:
                yield source, source.variants.get(name, name)

    def stood_on(self, source, name):
        """What a definition stands on: what its text names, or the statement that is read in its place."""
        if self.in_place and (path := source.in_place_of(name)):
            return {self.brought(None, ["Rattle", *path.split(".")]) or sys.exit(f"{source.path}: {path} is nowhere")}
        return set(self.named(source, source.text_of(name)))

    def closure(self, found):
        """All that these stand on, and these."""
        whole, waiting = set(), set(found)
        while waiting:
            source, name = one = waiting.pop()
            whole.add(one)
            if one not in self.stands:
                self.stands[one] = self.stood_on(source, name)
            waiting |= self.stands[one] - whole
        return whole

    def below(self, name):
        """What a definition or a contract stands on, without itself."""
        crate, _, function = name.partition("::")
        for source in self.sources.values() if function else []:
            if source.crate == crate and function in dict(source.contracts()):
                return self.closure(self.named(source, dict(source.contracts())[function]))
        start = None if function else self.brought(None, ["Rattle", *name.split(".")])
        return self.closure([start]) - {start} if start else sys.exit(f"nothing is named {name}")

    def in_order(self, below):
        """The files of these, each behind those on which it stands, but for files that stand on one another."""
        by_file, order, met = {}, [], set()
        for one in below:
            by_file.setdefault(one[0].path, []).append(one)

        def visit(path):
            if path not in met:
                met.add(path)
                stands = {other[0].path for one in by_file[path] for other in self.closure([one]) & below}
                for other in sorted(stands - {path}):
                    visit(other)
                order.append(path)

        for path in sorted(by_file):
            visit(path)
        return [(path, by_file[path]) for path in order]

    def given_out(self, crate):
        """The names that the library of a crate gives out."""
        library = self.sources.get(pathlib.Path("crates", crate, "src", "lib.rt"))
        found = GIVEN_OUT.findall(library.text) if library else []
        return {name.split("::")[-1].strip() for whole, listed in found for name in (listed or whole).split(",")} - {""}

    def reached(self):
        """The files of all on which a public contract stands."""
        names = {source.crate: self.given_out(source.crate) for source in self.sources.values()}
        start = set()
        for source in self.sources.values():
            for clauses in source.public_clauses(names[source.crate]) if source.path.suffix == ".rt" else []:
                start.update(self.named(source, clauses))
        return {source.path for source, _ in self.closure(start)}

    def misplaced(self):
        """The files of definitions that are reached and private, or neither, each with what is wrong with it."""
        reached = self.reached()
        for path in sorted(self.sources):
            program = pathlib.Path("crates", path.parts[1], "src", "main.rt") in self.sources
            if path.suffix != ".antt" or path.parts[3:] in (("Lib.antt",), ("Private.antt",)) or program:
                continue
            if (path.parts[3] == "Private") == (path in reached):
                yield path, "reached" if path in reached else "unreached"


def lines_of(one):
    """How many lines a definition has."""
    first, last = one[0].heads[one[1]]
    return 1 if one[0].in_place_of(one[1]) else last - first


def told(some, kind):
    """How many definitions of a kind there are, in how many files and lines."""
    return f"{len(some):,} {kind}, {len({one[0].path for one in some})} files, {sum(map(lines_of, some)):,} lines"


def print_reading(files):
    """Prints files in the order in which they can be read, with lines and hours."""
    read = 0
    for path, some in files:
        lines = sum(map(lines_of, some))
        read += lines
        names = ", ".join(name for _, name in sorted(some, key=lambda one: one[0].heads[one[1]]))
        print(f"{lines:5} lines, {read / SLOW:4.1f} hours  {path}: {names}")
    print(f"{read:,} lines in {len(files)} files: {read / FAST:.0f} to {read / SLOW:.0f} hours")


def main():
    """Counts, lists, or says what to read."""
    parser = argparse.ArgumentParser(description=__doc__, formatter_class=argparse.RawDescriptionHelpFormatter)
    parser.add_argument("names", nargs="*", metavar="NAME")
    parser.add_argument("--list", action="store_true")
    parser.add_argument("--read", action="store_true")
    parser.add_argument("--whole", action="store_true")
    parser.add_argument("--unreached", action="store_true")
    words = parser.parse_args()
    if bool(words.names) == words.unreached or words.list and words.unreached:
        parser.error("it takes names, or --unreached alone")
    crates = Crates(in_place=not words.unreached and not words.whole)
    if words.unreached:
        found = list(crates.misplaced())
        print("".join(f"{wrong}: {path}\n" for path, wrong in found), end="")
        return 1 if found else 0
    rows = [(name, crates.below(name)) for name in words.names]
    if words.read:
        print_reading(crates.in_order(set().union(*(below for _, below in rows))))
        return 0
    if len(rows) > 1:
        rows.append(("together", set().union(*(below for _, below in rows))))
    for name, below in rows:
        types = {one for one in below if one[0].path.suffix == ".rt"}
        print(f"{name}: {told(below - types, 'definitions')}; of src/ {told(types, 'types')}")
        for one in sorted(below, key=lambda one: (one[0].path, one[0].heads[one[1]])) if words.list else []:
            print(f"{lines_of(one):6}  {one[0].path}  {one[1]}")
    return 0


if __name__ == "__main__":
    sys.exit(main())
