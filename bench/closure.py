#!/usr/bin/env -S python3 -B
"""Prints how much text the promise of `run` takes, floor by floor.

The clauses of `run` (crates/cluster_top/src/top.rt) name definitions of specs files, which name others. From these clauses the imports are
followed to the end, re-exports to the file that defines a name. The definitions lie on three floors:

    history   what clients may rely on: the definition `OneHistory` and what it needs, without the language below
    language  BSON, the wire, commands, queries and pipelines, as the standards have them
    run       the run of the nodes, devices, journals, statuses, scripts

For each floor it prints the number of files, the lines of these files, and the lines of those definitions in them that the clauses reach, with
the comment above each and without imports. A file may have definitions on two floors. Blank lines are not counted, nor the kit's libraries, nor
enums, structs and traits of the code. Ends with status 1 where the definitions of the floor `history` have more than MOST_OF_HISTORY lines, or
where an import leads nowhere.

    bench/closure.py [--files] [--definitions]
"""
import pathlib
import re
import sys

TOP = pathlib.Path(__file__).resolve().parent.parent

CLAUSES = TOP / "crates" / "cluster_top" / "src" / "top.rt"

# The floors by crate, and by how its name begins; a crate that is in neither belongs to the run.
HISTORY = {"reply_model", "history_model", "chunk_model"}
LANGUAGE = ("bson_", "value_", "base_", "opmsg_", "query_", "pipeline_", "command_")

# Where the floor of the history begins.
ONE_HISTORY = (("reply_model", "OneHistory"), "OneHistory")

# Libraries of the kit.
OUTSIDE = {"std", "hex", "itoa", "bytes", "byteorder"}

MOST_OF_HISTORY = 700

IMPORT = re.compile(r"^(?:pub |ghost )*use Rattle\.(\w+)\.specs\.([\w.]+?)(?:\.\{([^}]*)\})?(?: as (\w+))?\s*;?$", re.M)
HEAD = re.compile(r"^(?:abbrev mutual\s+|mutual\s+)?(?:abbrev |record |data |mutual |pub )*(\S+)")
WORD = re.compile(r"[^\s(){}\[\]∷,;.λ×→↦|]+")


def path_of(file):
    crate, name = file
    return TOP / "crates" / crate / "specs" / f"{name}.antt"


def defined_in(crate, name, seen=()):
    """The file that defines what `crate` shows under this name of a file, through its re-exports."""
    if path_of((crate, name)).exists():
        return crate, name
    lib = path_of((crate, "Lib"))
    if (crate, name) in seen or not lib.exists():
        return None
    for other, file in re.findall(r"^pub use Rattle\.(\w+)\.specs\.(\w+)\s*$", lib.read_text(), re.M):
        if file == name:
            return defined_in(other, file, seen + ((crate, name),))
    return None


class File:
    """The imports of a specs file, and its definitions: the paragraphs between blank lines."""

    def __init__(self, file):
        self.file, text = file, path_of(file).read_text()
        self.lines = sum(1 for line in text.split("\n") if line.strip())
        self.names, self.aliases, self.lost = imports_of(text)
        self.blocks, self.block_of = [], {}
        for paragraph in re.split(r"\n\s*\n", text):
            kept = [line for line in paragraph.split("\n") if line.strip() and not IMPORT.match(line)]
            code = [line for line in kept if not line.lstrip().startswith("--")]
            if code:
                self.add("\n".join(code), len(kept) - heading_lines(kept))

    def add(self, code, lines):
        """Takes in a paragraph: a definition, or further equations of one that a blank line parts from it."""
        own = names_defined(code)
        known = [number for number, block in enumerate(self.blocks) if own & block[0]]
        if known and not re.match(r"(?:abbrev|pub|record|data|mutual)\b", code):
            number = known[0]
            self.blocks[number] = (self.blocks[number][0] | own, self.blocks[number][1] + "\n" + code, self.blocks[number][2] + lines)
        else:
            number = len(self.blocks)
            self.blocks.append((own, code, lines))
        for name in own:
            self.block_of.setdefault(name, number)


def heading_lines(kept):
    """Lines that are a heading in capitals, which belongs to no definition."""
    return sum(1 for line in kept if re.match(r"-- [A-Z' ,]+$", line))


def names_defined(code):
    """What a paragraph defines: heads of definitions and equations, fields and constructors."""
    names = set()
    for line in code.split("\n"):
        if re.match(r"\s{2,}(?:pub )?([^\s:]+) :", line):
            names.add(re.match(r"\s*(?:pub )?([^\s:]+) :", line)[1])
        elif not line.startswith((" ", ")", "}")):
            names.add(HEAD.match(line)[1])
        elif re.match(r"  (?:abbrev |record |data |pub )+(\S+)", line):
            names.add(re.match(r"  (?:abbrev |record |data |pub )+(\S+)", line)[1])
    return {name for name in names if not name.startswith("(")} - {"mutual", "where"}


def imports_of(text):
    """The files in which imported names are defined, the files that have a name of their own, and imports that lead nowhere."""
    names, aliases, lost = {}, {}, []
    for crate, place, listed, alias in IMPORT.findall(text):
        if crate in OUTSIDE or place.startswith("declared"):
            continue
        file = defined_in(crate, place.split(".")[0])
        if file is None:
            lost.append(f"Rattle.{crate}.specs.{place}")
        elif alias:
            aliases[alias] = file
        else:
            names.update((name.strip(), file) for name in listed.split(","))
    return names, aliases, lost


class Closure:
    """The files and definitions that some names reach."""

    def __init__(self):
        self.files, self.reached, self.lost, self.pending = {}, set(), set(), []

    def open(self, file):
        if file not in self.files:
            self.files[file] = File(file)
            self.lost.update(f"{place} in {path_of(file).relative_to(TOP)}" for place in self.files[file].lost)
        return self.files[file]

    def want(self, file, name):
        opened = self.open(file)
        if name in opened.block_of:
            self.pending.append((file, opened.block_of[name]))
        elif name in opened.names:
            self.want(opened.names[name], name)

    def follow(self):
        while self.pending:
            file, number = self.pending.pop()
            if (file, number) in self.reached:
                continue
            self.reached.add((file, number))
            opened = self.files[file]
            code = opened.blocks[number][1]
            for name in set(WORD.findall(code)):
                if name in opened.names or name in opened.block_of:
                    self.want(file, name)
            for alias, target in opened.aliases.items():
                for name in re.findall(rf"\b{alias}\.(\w+)", code):
                    self.want(target, name)


def reach(starts):
    closure = Closure()
    for file, name in starts:
        closure.want(file, name)
    closure.follow()
    return closure


def floors_of(closure):
    """The definitions on each floor: those of the history that `OneHistory` needs, those of the language, and all others."""
    history = {of for of in reach([ONE_HISTORY]).reached if of[0][0] in HISTORY}
    language = {of for of in closure.reached if of[0][0].startswith(LANGUAGE)}
    return {"history": history, "language": language, "run": closure.reached - history - language, "all": closure.reached}


def report(closure, options):
    counts = {}
    for floor, reached in floors_of(closure).items():
        files = {}
        for file, number in reached:
            files.setdefault(file, []).append(number)
        counts[floor] = [len(files), sum(closure.files[file].lines for file in files), sum(closure.files[file].blocks[number][2] for file, number in reached)]
        if options and floor != "all":
            for file in sorted(files):
                report_file(closure.files[file], sorted(files[file]), floor, options)
    print(f"{'floor':9} {'files':>6} {'lines':>6} {'of definitions that are reached':>32}")
    for floor, (files, lines, reached) in counts.items():
        print(f"{floor:9} {files:6} {lines:6} {reached:32}")
    return counts


def report_file(opened, numbers, floor, options):
    lines = sum(opened.blocks[number][2] for number in numbers)
    print(f"{floor:9} {opened.lines:5} {lines:5}  {path_of(opened.file).relative_to(TOP)}")
    if "--definitions" in options:
        for number in numbers:
            print(f"                {opened.blocks[number][2]:5}  {', '.join(sorted(opened.blocks[number][0]))[:100]}")


def main():
    options = set(sys.argv[1:])
    if options - {"--files", "--definitions"}:
        sys.exit(__doc__)
    names, _, lost = imports_of(CLAUSES.read_text())
    closure = reach([(file, name) for name, file in names.items()])
    counts = report(closure, options)
    for place in sorted(closure.lost | set(lost)):
        print(f"leads nowhere: {place}")
    if closure.lost or lost or counts["history"][2] > MOST_OF_HISTORY:
        sys.exit(1)


main()
