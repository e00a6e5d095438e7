#!/usr/bin/env python3
"""Counts the shape of the repository, and writes the table of docs/ARCHITECTURE.md.

    python3 -m dev.shape [--write] [--crates] [--names] [--long] [TREE]

prints the table: how large the core is and its proofs, how many names two crates declare, how deep
the stack is, and how many lines, functions and answers are too long. With `--write` it takes the
place of what stands between the lines `<!-- shape -->` and `<!-- end of shape -->` of
docs/ARCHITECTURE.md. `--crates` prints what each crate has, `--names` the names that two crates
declare, `--long` what is too long.

How it counts. A line is a line of a file, whatever stands in it. A function is a `fn` of src, with
a body or without one, in tests too. Its length is that of its body, from the line of the first
brace to that of the last. A name is a public item at the top level of a file of src, beside its
tests, or of specs; a module is none, nor is a method. The columns of a source line are its
characters; a line of `ghost use`, which imports, does not count.

Lines of code are the lines of src, contracts and imports among them, that are neither blank nor a
comment alone. The lines of worked windows are data that the prover computes with; they are counted
apart from those of proofs.
"""
from __future__ import annotations

import argparse
import collections
import glob
import os
import re
from typing import Any

from bench.figures import head_row, made, row, told_by, write

ROOT = os.path.dirname(os.path.dirname(os.path.realpath(__file__)))
MARKS = "<!-- shape -->", "<!-- end of shape -->"
COLUMNS = 100
ANSWER = 300
BODY = 40
FUNCTION = re.compile(r"^( *)(?:pub(?:\(crate\))? )?(?:const )?(?:extern \"C\" )?fn (\w+)")
ITEM = re.compile(
    r"^pub(?:\(crate\))? (?:const )?(?:ghost )?(?:fn|struct|enum|trait|type|const)\s+(\w+)", re.M
)
DEFINITION = re.compile(r"^(?:abbrev pub|pub data|pub record|pub)\s+(?!mod\b)([\w']+)\s", re.M)
PROOFS = "hub_core", "window_order", "device_order"
WORKED = "worked_windows"  # windows that the prover computes: data, and no proof of code
IMPORT = re.compile(r"(?:unfoldable )?(?:pub )?use ")
SECOND_VERSION = (
    91_393 - 67_593
)  # what it added to the proofs, in lines: from commit bcce38e3 to e603b779

File = collections.namedtuple("File", "path lines")
Crate = collections.namedtuple("Crate", "name source specs proofs")


# -- Reading


def files(folder: str, ending: str) -> list[File]:
    found = []
    for place, _, names in sorted(os.walk(folder)):
        for name in sorted(names):
            if name.endswith(ending):
                with open(os.path.join(place, name), encoding="utf-8") as file:
                    found.append(File(os.path.join(place, name), file.read().splitlines()))
    return found


def crates(tree: str) -> tuple[list[Crate], dict[str, list[str]]]:
    """Returns the crates of crates.txt, and on what each stands."""
    stands_on = {}
    with open(os.path.join(tree, "crates.txt"), encoding="utf-8") as file:
        for line in file:
            name, colon, below = line.partition(":")
            if colon and not line.startswith("#"):
                stands_on[name.split()[0]] = below.split()
    read = []
    for name in sorted(stands_on):
        folder = os.path.join(tree, "crates", name)
        parts = ("src", ".rt"), ("specs", ".antt"), ("proofs", ".antt")
        read.append(
            Crate(name, *(files(os.path.join(folder, part), ending) for part, ending in parts))
        )
    return read, stands_on


# -- Counting


def size(part: list[File]) -> int:
    return sum(len(file.lines) for file in part)


def bodies(file: File) -> list[tuple[str, int]]:
    """Returns each function of a file with the length of its body, 0 where it has none."""
    found = []
    for number, line in enumerate(file.lines):
        function = FUNCTION.match(line)
        if function:
            found.append((function[2], body(file.lines[number:], function[1])))
    return found


def body(lines: list[str], indent: str) -> int:
    begin = None
    for number, line in enumerate(lines):
        if begin is None and (
            line == indent + "{"
            or line.endswith(" {")
            and number == 0
            or line.startswith(indent + ")")
            and line.endswith(" {")
        ):
            begin = number
        if line == indent + "}" and begin is not None:
            return number - begin + 1
        if number and FUNCTION.match(line) or line.endswith(";") and begin is None:
            return 0
    return 0


def code_lines(file: File) -> int:
    """Returns how many lines of a file are neither blank nor a comment."""
    return sum(not line.strip().startswith("//") for line in file.lines if line.strip())


def long_lines(crate: Crate) -> list[tuple[str, int, str]]:
    return [
        (file.path, number, line)
        for file in crate.source
        for number, line in enumerate(file.lines, 1)
        if len(line) > COLUMNS and not line.lstrip().startswith(("ghost use", "pub ghost use"))
    ]


def long_answers(crate: Crate) -> list[Any]:
    return [
        (file.path, number, line)
        for file in crate.proofs
        if os.path.basename(file.path) == "Answers.antt"
        for number, line in enumerate(file.lines, 1)
        if len(line) > ANSWER and not IMPORT.match(line)
    ]


def names(read: list[Crate]) -> dict[str, list[str]]:
    """Returns the names that two crates declare, each with the crates."""
    declared = collections.defaultdict(set)
    for crate in read:
        for file in crate.source:
            for name in ITEM.findall("\n".join(file.lines).split("#[cfg(test)]")[0]):
                declared[name].add(crate.name)
        for file in crate.specs:
            for name in DEFINITION.findall("\n".join(file.lines)):
                declared[name].add(crate.name)
    return {name: sorted(where) for name, where in sorted(declared.items()) if len(where) > 1}


def depth(stands_on: dict[str, list[str]], program: str = "hub_main") -> int:
    """Returns the longest chain of libraries, without the programs on top."""
    known = {}

    def height(name: str) -> int:
        if name not in known:
            known[name] = 1 + max(
                (height(below) for below in stands_on[name] if below in stands_on), default=0
            )
        return known[name]

    return height(program) - 1


def page_words(tree: str) -> int:
    """The words of README.md, of docs and of the crates' pages, as `wc -w` counts them."""
    words = 0
    for pattern in "README.md", "docs/*.md", "crates/*/README.md":
        for path in glob.glob(os.path.join(tree, pattern)):
            with open(path, encoding="utf-8") as file:
                words += len(file.read().split())
    return words


# -- Telling


def table(tree: str) -> None:
    read, stands_on = crates(tree)
    by_name = {crate.name: crate for crate in read}
    core = by_name["hub_core"]
    functions = [function for crate in read for file in crate.source for function in bodies(file)]
    rows = [
        ("functions of `hub_core`", sum(len(bodies(file)) for file in core.source), 130),
        ("lines of code of `hub_core`", sum(code_lines(file) for file in core.source), 2600),
        ("the same with blank lines and comments", size(core.source), None),
        (
            "proof lines of `hub_core`, `window_order` and `device_order`",
            sum(size(by_name[name].proofs) for name in PROOFS),
            27000,
        ),
        (
            "proof lines in all, without those of worked windows",
            sum(size(crate.proofs) for crate in read if crate.name != WORKED),
            60000 + SECOND_VERSION,
        ),
        ("lines of worked windows", size(by_name[WORKED].proofs), None),
        (
            "imports in proofs, in lines",
            sum(
                bool(IMPORT.match(line))
                for crate in read
                for file in crate.proofs
                for line in file.lines
            ),
            7500,
        ),
        ("names that two crates or more declare", len(names(read)), 45),
        ("libraries of the longest chain", depth(stands_on), 8),
        (
            f"source lines over {COLUMNS} columns, beside `ghost use`",
            sum(len(long_lines(crate)) for crate in read),
            100,
        ),
        (
            f"functions with a body of over {BODY} lines",
            sum(length > BODY for _, length in functions),
            0,
        ),
        (
            f"answer lines over {ANSWER} characters",
            sum(len(long_answers(crate)) for crate in read),
            0,
        ),
        ("words of the pages of docs and crates", page_words(tree), 65000),
    ]
    head_row("What is counted", "Today", "Wanted at most")
    for what, count, most in rows:
        row(what, f"{count:,}", "" if most is None else f"{most:,}")


def each_crate(tree: Any) -> None:
    read, _ = crates(tree)
    head_row("Crate", "Functions", "Source", "Specs", "Proofs")
    for crate in read:
        counts = (
            sum(len(bodies(file)) for file in crate.source),
            size(crate.source),
            size(crate.specs),
            size(crate.proofs),
        )
        row(crate.name, *map(str, counts))


def doubled(tree: Any) -> None:
    for name, where in names(crates(tree)[0]).items():
        print(f"{name}: {' '.join(where)}")


def too_long(tree: Any) -> None:
    for crate in crates(tree)[0]:
        for path, number, line in long_lines(crate) + long_answers(crate):
            print(f"{os.path.relpath(path, tree)}:{number}: {len(line)}")
        for file in crate.source:
            for name, length in bodies(file):
                if length > BODY:
                    print(f"{os.path.relpath(file.path, tree)}: {name}: {length} lines")


def main() -> None:
    reader = argparse.ArgumentParser(description=__doc__.splitlines()[0])
    for word in ("write", "crates", "names", "long"):
        reader.add_argument(f"--{word}", action="store_true")
    reader.add_argument("tree", nargs="?", default=ROOT, metavar="TREE")
    given = reader.parse_args()
    if given.write:
        heading = (
            f"Counted by `python3 -m dev.shape --write` over commit "
            f"{told_by('git', 'rev-parse', '--short', 'HEAD')}."
        )
        write("ARCHITECTURE.md", made(heading, lambda: table(given.tree)), MARKS)
    for asked, tell in (given.crates, each_crate), (given.names, doubled), (given.long, too_long):
        if asked:
            tell(given.tree)
    if not (given.write or given.crates or given.names or given.long):
        table(given.tree)


if __name__ == "__main__":
    main()
