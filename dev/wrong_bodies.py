#!/usr/bin/env python3
"""Tries the wrong bodies of crates/NAME/wrong-bodies/ in batches of one check, and writes down what
refused each.

    python3 -m dev.wrong_bodies [NAME..]      tries those of these crates, or of all
    .. --must-fail                              those of crates/NAME/must-fail/ too
    .. --scan                                   proves nothing: says in seconds which no longer
                                                apply or compile
    .. --only WORD                              those alone whose name has WORD in it
    .. --at-once N                              that many checks at a time (one, if none is given)
    python3 -m dev.wrong_bodies --sums        prints the sums of docs/wrong-bodies.tsv, by crate

A wrong body is an edit in the form of rt's must-fail edits: a line 'file: ..', then pairs of lines
'old: ..' and 'new: ..'. Those of must-fail/ are tried by the gate, with a check for each, and are
the few that tell most. Those of wrong-bodies/ are tried by this program, before a release and after
a change of what they are about. A crate's kept work is the beginning (`rt check` runs first, and
must prove the crate as it stands), and each check runs on a copy.

Most of what one check of a large crate costs is the same for one edit and for twenty, so edits
share a check. They must not be able to hide one another: a function that calls one which is refused
gets no proof for that reason alone. So no two edits of a batch are in one function, and no edited
function calls another edited one, directly or through others (by the names that stand in the
bodies, which finds too many calls, and misses few). An edit counts as refused where the function
that it is in has a line of its own, `fn F: not proved` or `fn F: no proof: expected answers in ..`.
What has none in its batch is tried alone, and then any such line counts, for example that of a
caller of a function without a contract. Edits outside functions are always tried alone. A batch
that does not compile is halved.

docs/wrong-bodies.tsv has a line for each edit, sorted: crate, edit, the function that refused it,
what was not proved of it, and the day and kit of the last try. The status is 1 if an edit cannot be
applied, does not compile, is still proved, or came to nothing (its check was killed, say).

It wants Python 3, and `rt` on the path.
"""
from __future__ import annotations

import argparse
import collections
import datetime
import importlib.machinery
import importlib.util
import os
import re
import shutil
import subprocess
import sys
import tempfile
from collections.abc import Iterable
from concurrent.futures import ThreadPoolExecutor
from typing import Any, NamedTuple

ROOT = os.path.dirname(os.path.dirname(os.path.realpath(__file__)))
TABLE = f"{ROOT}/docs/wrong-bodies.tsv"
HEAD = ("crate", "edit", "refused by", "not proved", "day", "kit")
# The most edits in one check: its memory and its log grow with them.
MOST = 20
WRONG, GATE = "wrong-bodies", "must-fail"

Pair = tuple[str, str, str]  # a file, what stands there, and what is to stand there
Calls = frozenset[tuple[str, str]]
Key = tuple[str, str]  # a function, by type and name


# An edit of a crate: its pairs, and the functions that they are in (None for a place outside
# functions).
class Edit(NamedTuple):
    crate: str
    name: str
    pairs: tuple[Pair, ...]
    functions: frozenset[Function | None]


# A function of the source: its module's path, its type ('' for a free one), its name, and the calls
# in it, each as the name that stands before `::` ('.' for a method, '' for neither) and the name
# that is called.
class Function(NamedTuple):
    module: str
    type: str
    name: str
    calls: Calls


# What a try came to: the function that refused it and what was not proved of it, or why it is none.
class Tried(NamedTuple):
    by: str
    goal: str
    trouble: str


# -- The kit


def load_kit() -> tuple[str, Any]:
    """Returns the kit's folder and its module rtlib, by which rt itself makes the words of a
    check.
    """
    rt = shutil.which("rt") or sys.exit("wrong_bodies: there is no rt on the path")
    kit = os.path.dirname(os.path.dirname(os.path.realpath(rt)))
    sys.dont_write_bytecode = True
    loader = importlib.machinery.SourceFileLoader("rtlib", f"{kit}/bin/rtlib.py")
    found = importlib.util.spec_from_loader("rtlib", loader)
    assert found is not None
    made = importlib.util.module_from_spec(found)
    sys.modules["rtlib"] = made
    loader.exec_module(made)
    return kit, made


KIT, rtlib = load_kit()


def kit_name() -> str:
    with open(f"{KIT}/KIT-ID", encoding="utf-8") as it:
        return (it.read().split() or ["unknown"])[0]


# -- The source: which function an edit is in, and which functions that one calls


def blanked(text: str) -> str:
    """Returns the text with comments and literals blanked, at the same places."""
    aside = r'//[^\n]*|"(?:\\.|[^"\\])*"|\'(?:\\.|[^\'\\])\''
    return re.sub(aside, lambda found: re.sub(r"[^\n]", " ", found[0]), text)


def type_of(head: str) -> str:
    """Returns the name of the type that the head of an `impl` or a `trait` is for."""
    while "<" in head:
        less = re.sub(r"<[^<>]*>", "", head)
        if less == head:
            break
        head = less
    found = re.search(r"\bfor\s+&?\s*(?:\w+::)*(\w+)", head) or re.search(
        r"\b(?:impl|trait)\s+(?:\w+::)*(\w+)", head
    )
    return found[1] if found else ""


def functions_of(path: str, text: str) -> list[tuple[int, Function]]:
    """Returns the functions of a file of src/, each with the place where it begins, in the file's
    order.
    """
    module = path[len("src/") : -len(".rt")].replace("/", "::")
    module, text = "" if module in ("lib", "main") else module, blanked(text)
    begins = [
        it
        for it in re.finditer(
            r"^( *)(?:pub(?:\([^)]*\))? )?(?:const )?(?:extern +)?fn (\w+)", text, re.M
        )
    ]
    heads = [it for it in re.finditer(r"^(?:pub )?(?:impl|trait)\b[^{;]*", text, re.M)]
    found = []
    for it, after in zip(begins, [*begins[1:], None]):
        body = text[it.end() : after.start() if after else len(text)]
        above = [head[0] for head in heads if head.start() < it.start()]
        kind = type_of(above[-1]) if it[1] and above else ""
        found.append((it.start(), Function(module, kind, it[2], calls_in(body, kind))))
    return found


def calls_in(body: str, kind: str) -> Calls:
    """Returns the calls in a function of this type."""
    found = re.findall(r"(\w+::|\.|)\b(\w+)(?:::<[^(]*>)?\(", body) + re.findall(
        r"(\w+::)(\w+)\b", body
    )
    befores = {"Self::": kind, ".": ".", "": ""}
    return frozenset((befores.get(it, it[:-2]), name) for it, name in found)


def function_at(path: str, text: str, place: int) -> Function | None:
    """Returns the function that stands at this place of a file of src/, or None."""
    at = (
        [function for begin, function in functions_of(path, text) if begin <= place]
        if path.startswith("src/")
        else []
    )
    return at[-1] if at else None


def sources_of(folder: str) -> list[Function]:
    """Returns all functions of the crate."""
    paths = [
        os.path.relpath(f"{at}/{it}", folder)
        for at, _, names in os.walk(f"{folder}/src")
        for it in names
    ]
    files = sorted(it for it in paths if it.endswith(".rt"))
    return [it for path in files for _, it in functions_of(path, text_of(f"{folder}/{path}"))]


def may_call(call: tuple[str, str], it: Function) -> bool:
    """Returns whether a call may be one of this function: a method of any type, the function of a
    type, or a free one.
    """
    before, name = call
    free = before == "" or before[:1].islower()
    return name == it.name and (
        bool(it.type) if before == "." else it.type == "" if free else it.type == before
    )


def reach_of(folder: str) -> dict[Key, set[Key]]:
    """Returns, for each function of the crate, by type and name, those that it calls, directly or
    through others, and itself.
    """
    named: dict[str, list[Function]] = collections.defaultdict(list)
    calls: dict[Key, set[Key]] = collections.defaultdict(set)
    every = sources_of(folder)
    for it in every:
        named[it.name].append(it)
    for it in every:
        for call in it.calls:
            calls[key(it)] |= {key(other) for other in named[call[1]] if may_call(call, other)}
    reach = {}
    for own in map(key, every):
        seen, left = {own}, [own]
        while left:
            new = calls[left.pop()] - seen
            seen, left = seen | new, [*left, *new]
        reach[own] = seen
    return reach


def key(function: Function) -> Key:
    return function.type, function.name


def text_of(path: str) -> str:
    with open(path, encoding="utf-8") as it:
        return it.read()


# -- Edits


def pairs_of(text: str) -> list[Pair]:
    """Returns the pairs of an edit, each with the file that it is about."""
    path, old, pairs = "", "", []
    for line in text.split("\n"):
        if line.startswith("file: "):
            path = line[len("file: ") :].strip()
        elif line.startswith("old: "):
            old = line[len("old: ") :]
        elif line.startswith("new:"):
            pairs.append((path, old, line[len("new:") :].removeprefix(" ")))
    return pairs


def applied(
    folder: str, pairs: Iterable[Pair], texts: dict[str, str]
) -> tuple[dict[str, str], set[Function | None], str]:
    """Applies pairs to texts of the crate's files, which are read as they are asked for.

    Returns these texts, the functions that the pairs are in, and, where a pair cannot be applied,
    why.
    """
    texts, functions = dict(texts), set[Function | None]()
    for path, old, new in pairs:
        if path not in texts:
            if not os.path.isfile(f"{folder}/{path}"):
                return texts, functions, f"there is no file {path}"
            texts[path] = text_of(f"{folder}/{path}")
        found = texts[path].count(old) if old else 0
        if found != 1:
            return texts, functions, f"an 'old:' text stands in {path} {found} times, and not once"
        place = texts[path].index(old)
        functions |= {function_at(path, texts[path], place + len(old) - len(old.lstrip()))}
        texts[path] = texts[path].replace(old, new)
    return texts, functions, "" if pairs else "it has no 'old:' and 'new:' pair"


def edits_of(crate: Any, folders: list[str], word: str) -> tuple[list[Edit], dict[str, Tried]]:
    """Returns the edits of the crate that can be applied, and why the others cannot."""
    edits, lost = [], {}
    for folder in folders:
        at = f"{crate.folder}/{folder}"
        for name in sorted(os.listdir(at)) if os.path.isdir(at) else ():
            if not name.endswith(".edit") or word not in name:
                continue
            pairs = pairs_of(text_of(f"{at}/{name}"))
            _, functions, why = applied(crate.folder, pairs, {})
            edit = Edit(crate.name, name[: -len(".edit")], tuple(pairs), frozenset(functions))
            if why:
                lost[edit.name] = Tried("", "", f"cannot be applied: {why}")
            else:
                edits.append(edit)
    return edits, lost


def batches_of(crate: Any, edits: list[Edit]) -> list[list[Edit]]:
    """Parts edits into batches, in each of which no edited function calls another."""
    reach = reach_of(crate.folder)
    own = {edit: {key(it) for it in edit.functions if it} for edit in edits}
    below = {edit: {called for it in own[edit] for called in reach.get(it, {it})} for edit in edits}
    single = [it for it in edits if not own[it]]
    others = [it for it in edits if own[it]]
    apart = {
        one: {it for it in others if own[one] & below[it] or own[it] & below[one]} for one in others
    }
    batches = list[list[Edit]]()
    # (those first that go with the fewest others)
    for edit in sorted(others, key=lambda it: -len(apart[it])):
        fits = (
            it
            for it in batches
            if len(it) < MOST and not apart[edit] & {*it} and are_applied(crate, [*it, edit])
        )
        batch = next(fits, None)
        if batch is None:
            batches.append([edit])
        else:
            batch.append(edit)
    return [*batches, *([it] for it in single)]


def are_applied(crate: Any, edits: list[Edit]) -> bool:
    _, _, why = applied(crate.folder, [pair for it in edits for pair in it.pairs], {})
    return not why


# -- Checks


def check(crate: Any, edits: list[Edit], flags: list[str], is_kept: bool) -> tuple[int, str]:
    """Checks a copy of the crate with these edits, over a copy of its kept work, and returns status
    and output.
    """
    texts, _, why = applied(crate.folder, [pair for it in edits for pair in it.pairs], {})
    assert not why, why
    with tempfile.TemporaryDirectory(prefix=f"wrong-bodies-{os.getpid()}-") as room:
        for part in ("src", "specs", "proofs"):
            if os.path.isdir(f"{crate.folder}/{part}"):
                shutil.copytree(f"{crate.folder}/{part}", f"{room}/{part}")
        for path, text in texts.items():
            with open(f"{room}/{path}", "w", encoding="utf-8") as it:
                it.write(text)
        # (the front end alone also reads libraries that were not built yet)
        as_source = not is_kept and not all(it.is_built() for it in crate.below())
        words = [
            rtlib.RATTLE,
            "check",
            *crate.words(["--jobs", "1", *flags], keeps=False, as_source=as_source),
        ]
        if is_kept:
            linked(f"{crate.folder}/out/incremental", f"{room}/kept")
            words += ["--incremental", "kept"]
        ran = subprocess.run(
            words,
            errors="replace",
            cwd=room,
            stdin=subprocess.DEVNULL,
            stdout=subprocess.PIPE,
            stderr=subprocess.STDOUT,
        )
    return ran.returncode, ran.stdout


def linked(folder: str, to: str) -> None:
    """Copies kept work, by links where these can be made: a check replaces such a file, and writes
    into none.
    """

    def copy(one: str, other: str) -> None:
        try:
            if one.endswith(".oantt"):
                os.link(one, other)
                return
        except OSError:
            pass
        shutil.copy2(one, other)

    shutil.copytree(folder, to, copy_function=copy)


def refusals_in(said: str) -> dict[str, str]:
    """Returns what each function that was refused on its own account did not prove, by the name
    that rattle gives it.
    """
    found = {}
    for name, how in re.findall(
        r"^fn (\S+): (not proved|no proof: expected answers in .*)", said, re.M
    ):
        goals = re.search(r"did not prove ((?:`[^`]*`(?:, )?)+)", how)
        found[name] = re.findall(r"`([^`]*)`", goals[1])[0] if goals else goal_in_files(name, said)
    return found


def goal_in_files(name: str, said: str) -> str:
    """Returns the first answer in the function's own files of proofs/ that was refused, and whether
    for a name alone.
    """
    folder = "/".join(name.split("::")[1:])
    rows = re.findall(
        rf"^(?:\./)?proofs/{re.escape(folder)}/\S+: error: (?:`([^`]*)`: )?(.*)", said, re.M
    )
    real = [goal for goal, why in rows if not NAMES.search(re.sub(r"`[^`]*`", "", why))]
    return str(real[0]) if real else f"{rows[0][0]} (a name is gone)" if rows else ""


# antt's words for a name that is gone: such a refusal says little of the contract.
NAMES = re.compile(r"has no field|is not in scope|has no |was not admitted")
# What cannot be read of the source or the definitions, where an edit that only makes a statement
# false reads well.
UNREAD = re.compile(
    r"^(?:\./)?(?:src|specs)/\S+: error: .*(?:is not in scope|has no field|is no name|"
    r"operand is missing|expected the end|cannot continue)",
    re.M,
)
LIMIT = re.compile(r"antt ran out of |outgrew the memory limit|stopped at the step limit")


def does_not_compile(said: str) -> str:
    """Returns the first line that tells that the text does not compile, or ''."""
    found = re.search(r"^.*\berror\[[\w-]+\].*$", said, re.M) or UNREAD.search(said)
    return found[0][:200] if found else ""


def refusal_of(edit: Edit, refusals: dict[str, str]) -> Tried | None:
    """Returns the function of the edit's own that was refused, with what it did not prove, or
    None.
    """
    for it in sorted((it for it in edit.functions if it), key=str):
        module = f"{re.escape(it.module)}::" if it.module else ""
        kind = f"{it.type}[^:]*::" if it.type else ""
        own = re.compile(rf"{edit.crate}::{module}(?:fn::)?{kind}{it.name}(?:::.*)?")
        for name, goal in refusals.items():
            if own.fullmatch(name):
                return Tried(name, goal, "")
    return None


def alone(status: int, said: str) -> Tried:
    """Returns what the try of a single edit came to."""
    for name, goal in refusals_in(said).items():
        return Tried(name, goal, "")
    if status == 0:
        return Tried("", "", "is still proved")
    if status == 3 and LIMIT.search(said):
        return Tried("a limit of the prover", "", "")
    last = said.rstrip().split("\n")[-1]
    if status == 1 and last.startswith("logic=not-proved"):
        told = re.search(r"^(?:\./)?(\S+?:\d+):\d+: error", said, re.M)
        return Tried(told[1] if told else "the check", "", "")
    return Tried("", "", f"came to nothing: its check ended with status {status}: {last[:160]}")


def halves(edits: list[Edit]) -> tuple[list[Edit], list[Edit]]:
    middle = len(edits) // 2
    return edits[:middle], edits[middle:]


def try_batch(crate: Any, edits: list[Edit]) -> dict[str, Tried]:
    """Returns what each edit of a batch came to, by its name."""
    status, said = check(crate, edits, [], True)
    bad = does_not_compile(said)
    if bad and len(edits) == 1:
        return {edits[0].name: Tried("", "", f"does not compile: {bad}")}
    if len(edits) > 1 and (bad or status not in (1, 3)):
        one, other = halves(edits)
        return {**try_batch(crate, one), **try_batch(crate, other)}
    refusals = refusals_in(said)
    found: dict[str, Tried] = {}
    for it in edits:
        refused = refusal_of(it, refusals)
        if refused:
            found[it.name] = refused
        elif len(edits) == 1:
            found[it.name] = alone(status, said)
        else:
            found.update(try_batch(crate, [it]))
    return found


def scan_batch(crate: Any, edits: list[Edit]) -> dict[str, Tried]:
    """Returns why edits of a batch do not compile, by their names, by the front end alone."""
    _, said = check(crate, edits, ["--only", ""], False)
    bad = does_not_compile(said)
    if not bad and re.search(r"^only=.*\n\Z", said, re.M):
        return {}
    if len(edits) == 1:
        return {edits[0].name: Tried("", "", f"does not compile: {bad or said.rstrip()[-200:]}")}
    one, other = halves(edits)
    return {**scan_batch(crate, one), **scan_batch(crate, other)}


# -- The table


def table() -> dict[tuple[str, str], list[str]]:
    """Returns the rows of the table by crate and edit."""
    rows = (
        [it.split("\t") for it in text_of(TABLE).splitlines()[1:]] if os.path.isfile(TABLE) else []
    )
    return {(it[0], it[1]): it for it in rows}


def names_in(crate: str) -> set[str]:
    """Returns the names of all edits of a crate."""
    parts = [f"{ROOT}/crates/{crate}/{it}" for it in (WRONG, GATE)]
    return {
        it[: -len(".edit")]
        for at in parts
        if os.path.isdir(at)
        for it in os.listdir(at)
        if it.endswith(".edit")
    }


def write_down(crate: Any, found: dict[str, Tried]) -> None:
    """Puts what was refused into the table, and takes out what was not, and what is no edit any
    more.
    """
    rows, day, kit = table(), datetime.date.today().isoformat(), kit_name()
    for name, it in found.items():
        rows.pop((crate.name, name), None)
        if not it.trouble:
            rows[crate.name, name] = [crate.name, name, it.by, it.goal, day, kit]
    gone = [it for it in rows if it[0] == crate.name and it[1] not in names_in(crate.name)]
    lines = ["\t".join(row) for at, row in sorted(rows.items()) if at not in gone]
    with open(f"{TABLE}.new", "w", encoding="utf-8") as new:
        new.write("\n".join(["\t".join(HEAD), *lines]) + "\n")
    os.replace(f"{TABLE}.new", TABLE)


def print_sums() -> None:
    """Prints, by crate, how many edits the gate tries, how many this program, and how many were
    refused when tried last.
    """
    rows, sums = table(), [0, 0, 0]
    print("| Crate | Tried by the gate | Beside it | Refused when tried last |\n|---|---|---|---|")
    for crate in sorted(os.listdir(f"{ROOT}/crates")):
        kept, others = ([it for it in listing(crate, part)] for part in (GATE, WRONG))
        refused = sum((crate, it) in rows for it in [*kept, *others])
        if kept or others:
            print(f"| `{crate}` | {len(kept)} | {len(others)} | {refused} |")
        sums = [sums[0] + len(kept), sums[1] + len(others), sums[2] + refused]
    print(f"| all | {sums[0]} | {sums[1]} | {sums[2]} |")


def listing(crate: str, part: str) -> list[str]:
    at = f"{ROOT}/crates/{crate}/{part}"
    return (
        [it[: -len(".edit")] for it in os.listdir(at) if it.endswith(".edit")]
        if os.path.isdir(at)
        else []
    )


# -- The whole


def prove(crate: Any) -> bool:
    """Proves the crate as it stands, so that its edits are tried over that work, and returns
    whether it could.
    """
    ran = subprocess.run(
        ["rt", "check"],
        cwd=crate.folder,
        stdout=subprocess.PIPE,
        stderr=subprocess.STDOUT,
        errors="replace",
    )
    if ran.returncode:
        print(ran.stdout[-2000:])
    return ran.returncode == 0


def try_crate(crate: Any, given: argparse.Namespace) -> int:
    """Tries a crate's edits, tells each, and returns how many of them are in trouble."""
    edits, found = edits_of(crate, [GATE, WRONG] if given.must_fail else [WRONG], given.only)
    if not edits and not found:
        return 0
    if not given.scan and not prove(crate):
        print(
            f"{crate.name}: is not proved as it stands, so none of its edits was tried", flush=True
        )
        return len(edits) + len(found)
    batches = batches_of(crate, edits)
    print(f"{crate.name}: {len(edits)} edits in {len(batches)} checks", flush=True)
    with ThreadPoolExecutor(given.at_once) as pool:
        for some in pool.map(
            lambda it: (scan_batch if given.scan else try_batch)(crate, it), batches
        ):
            found.update(some)
    for name, it in sorted(found.items()):
        print(f"{crate.name}/{name}: {it.trouble or f'refused by {it.by}: {it.goal}'}", flush=True)
    if given.scan:
        print(
            f"{crate.name}: {len(edits) - len(found.keys() & {it.name for it in edits})} apply and "
            f"compile",
            flush=True,
        )
    else:
        write_down(crate, found)
    return sum(bool(it.trouble) for it in found.values())


def read_words() -> argparse.Namespace:
    reader = argparse.ArgumentParser(
        description=__doc__, formatter_class=argparse.RawDescriptionHelpFormatter
    )
    reader.add_argument("names", nargs="*", metavar="NAME")
    for flag in ("--must-fail", "--scan", "--sums"):
        reader.add_argument(flag, action="store_true")
    reader.add_argument("--only", default="", metavar="WORD")
    reader.add_argument("--at-once", type=int, default=1, metavar="N")
    return reader.parse_args()


def main() -> int:
    given = read_words()
    if given.sums:
        print_sums()
        return 0
    os.chdir(ROOT)
    # (each crate stands behind those that it uses)
    crates = rtlib.crates_below(ROOT)
    lacking = set(given.names) - {it.name for it in crates}
    if lacking:
        sys.exit(f"wrong_bodies: crates.txt has no {', '.join(sorted(lacking))}")
    troubles = sum(
        try_crate(it, given) for it in crates if not given.names or it.name in given.names
    )
    print(f"in trouble: {troubles}")
    return 1 if troubles else 0


if __name__ == "__main__":
    sys.exit(main())
