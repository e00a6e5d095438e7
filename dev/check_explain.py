#!/usr/bin/env python3
"""Shows that lazbendix explain tells the refusal of the reading first, at the byte where it is.

    PYTHONPATH=python python3 -m dev.check_explain [DAYS [SEED]]

It asks of

- the JSON reader with places, on the scripts of script_table, cut, altered and drawn texts: the
  value that the reference reads, or none; and where Python's own reader says where a text ends to
  be JSON, the same byte;
- the rows of explain_cases.tsv, written by hand from docs/FORMATS.md: the refusals told, in this
  order, each at the byte marked, and the words beside `&` in what is told of the first one;
  likewise of notes. In the table ‸ marks a byte, ✂ cuts the text, · is a line feed;
- the examples with one thing altered, for each value, member and object in them: the refusal first;
  at the byte that was altered, where the refusal's spot holds it, and else within the value of that
  spot;
- the examples with two things altered: both are told, where the second does not hang on the first
  (250 pairs of each);
- days that are drawn (2000 of the seed 1, and as many with guards) and spoiled: the refusal first,
  within the value of its spot.

Prints how many there were of each, and the first that is otherwise; ends with 1 then.
"""
import argparse
import collections
import csv
import glob
import json
import os
import random
import re
import sys
from collections.abc import Callable, Iterator
from typing import Any

from lazbendix.explain import explained, explanation, refusal_of
from lazbendix.reference import days
from lazbendix.reference.json_text import (
    MOST_DIGITS,
    Node,
    NotJson,
    position,
    read_json,
    read_places,
)
from lazbendix.script_mistakes import Mistake

HERE = os.path.dirname(os.path.abspath(__file__))
TOP = os.path.join(HERE, "..")


Counts = collections.Counter[str]
Row = dict[str, str]

ODD = ["null", "true", "-1", "1.5", '"x y"', "[]", "{}", "99999999999", "1e3"]
PIECES = [
    b"{",
    b"}",
    b"[",
    b"]",
    b",",
    b":",
    b'"',
    b"\\",
    b"\\u",
    b"d800",
    b"\\ud83d\\ude00",
    b"0",
    b"1",
    b"-",
    b".",
    b"e",
    b"9" * 21,
    b"9" * 5000,
    b"1e999",
    b" ",
    b"\n",
    b"\xc3\xa4",
    b"\xc3",
    b"\xff",
    b"true",
    b"fals",
    b"null",
    b"x",
    b"\x01",
    b"/",
]
PYTHON_TAKES = (
    "too great",
    "half a surrogate pair",
    "brackets are open",
)  # what its reader lets pass
INNER = {
    "down": ("devices", "down"),
    "command": ("routines", "commands"),
    "turn": ("windows", "turns"),
    "run": ("windows", "runs"),
}
MARK, CUT, FEED = "‸", "✂", "·"


class Otherwise(Exception):
    pass


def need(true: object, *told: object) -> None:
    if not true:
        raise Otherwise("\n".join(map(str, told)))


def example(name: str) -> bytes:
    with open(os.path.join(TOP, "examples", f"{name}.json"), "rb") as given:
        return given.read()


def examples() -> list[str]:
    return [
        os.path.basename(path)[:-5]
        for path in sorted(glob.glob(os.path.join(TOP, "examples", "*.json")))
    ]


# The JSON reader.


def ordered(value: Any) -> Any:
    """The value with its members in order, and each number with its type."""
    if isinstance(value, dict):
        return {name: ordered(value[name]) for name in sorted(value)}
    return list(map(ordered, value)) if isinstance(value, list) else value


def whole(digits: str) -> int | float:
    """A whole number as the reader has it, where Python's own has no bound."""
    if digits == "-0" or len(digits) > MOST_DIGITS or not -(2**63) <= int(digits) < 2**64:
        return float(digits)
    return int(digits)


def by_python(data: bytes) -> Any:
    """What Python's own reader reads. Raises `ValueError` and `RecursionError`."""
    return json.loads(data.decode(), parse_int=whole, parse_constant=int)


def check_json(data: bytes) -> tuple[str, NotJson | None]:
    """That Python's own reader reads the same, or nothing where this one reads nothing."""
    try:
        node = read_places(data)
    except NotJson as ends:
        need(0 <= ends.at <= len(data), data, ends.at)
        if not any(words in ends.why for words in PYTHON_TAKES):
            try:
                need(False, data, ends.why, by_python(data))
            except (ValueError, RecursionError):
                pass
        return "no JSON", ends
    value = repr(ordered(node.plain()))
    need(value == repr(ordered(by_python(data))), data)
    need(value == repr(ordered(read_json(data[node.at : node.end]))), data)
    return "read", None


def python_byte(data: bytes) -> int | None:
    """The byte at which Python's reader finds that the text is no JSON, where it finds so and names
    the byte itself.
    """
    try:
        text = data.decode()
        json.loads(
            text, parse_constant=int
        )  # NaN and Infinity, which it takes, are no numbers: ValueError
    except UnicodeDecodeError:
        return None
    except json.JSONDecodeError as wrong:
        if wrong.msg.startswith("Expecting") or wrong.msg == "Extra data":
            return len(text[: wrong.pos].encode())
    except (RecursionError, ValueError):
        pass
    return None


def json_texts(draw: random.Random) -> Iterator[bytes]:
    with open(os.path.join(TOP, "crates", "script_table", "stdin"), "rb") as table:
        stored = table.read().split(b"\n")
    yield from stored
    for name in examples():
        data = example(name)
        for at in range(len(data)):
            yield data[:at]
            yield data[:at] + data[at + 1 :]
            yield data[:at] + draw.choice(PIECES) + data[at + draw.randint(0, 1) :]
    for _ in range(10_000):
        text = draw.choice(stored)[:60] if draw.random() < 0.3 else b""
        yield text + b"".join(draw.choice(PIECES) for _ in range(draw.randint(0, 9)))


def check_reader(draw: random.Random) -> Counts:
    counts = Counts()
    for data in json_texts(draw):
        kind, broken = check_json(data)
        counts[kind] += 1
        byte = (
            python_byte(data)
            if broken and not any(words in broken.why for words in PYTHON_TAKES)
            else None
        )
        if broken and byte is not None:
            need(byte == broken.at, data, broken.at, byte)
            counts["of these at Python's byte too"] += 1
    return counts


# The table.


def case_text(row: Row) -> tuple[bytes, list[int]]:
    """The text of a row, and the bytes that are marked."""
    said = {
        key: row[key].replace(FEED, "\n").replace("\\ufeff", "\ufeff")
        for key in ("text", "in its place")
    }
    if row["example"] == "-":
        text = said["in its place"]
    else:
        before, found, behind = example(row["example"]).decode().partition(said["text"])
        need(found or not said["text"], f"{row['name']}: the example has no {said['text']}")
        text = before + said["in its place"] + behind
    text = text.partition(CUT)[0]
    parts = text.split(MARK)
    marks = [len("".join(parts[:k]).encode()) for k in range(1, len(parts))]
    return "".join(parts).encode(), marks


def check_note(row: Row) -> None:
    """A row of a script that is read: a hint of this kind at the byte marked, with these words."""
    data, marks = case_text(row)
    mistakes, hints = explained(data, "jit")
    told = [
        f"{hint.path}: {hint.says}"
        for hint in hints
        if f"note: {hint.kind}" == row["refusals"] and [hint.at] == marks
    ]
    need(
        not mistakes
        and len(told) == 1
        and all(words in told[0] for words in row["words"].split(" & ")),
        row["name"],
        mistakes,
        hints,
    )


def check_row(row: Row) -> None:
    data, marks = case_text(row)
    mistakes, _ = explained(data)
    refusals = row["refusals"].split(" ; ")
    need(
        [mistake.refusal for mistake in mistakes] == refusals,
        row["name"],
        [mistake.refusal for mistake in mistakes],
        refusals,
    )
    need([mistake.at for mistake in mistakes][: len(marks)] == marks, row["name"], mistakes, marks)
    told = f"{mistakes[0].path}: {mistakes[0].says}"
    for words in row["words"].split(" & "):
        need(words in told, row["name"], told, words)
    lines = data[: marks[0]].decode().split("\n")
    place = f"case:{len(lines)}:{len(lines[-1]) + 1}: error: script: {refusals[0]}\n"
    need(explanation("case", data)[0].startswith(place), row["name"], place)


def check_table() -> Counts:
    with open(os.path.join(HERE, "explain_cases.tsv"), encoding="utf-8", newline="") as stored:
        rows = list(csv.DictReader(stored, delimiter="\t", quoting=csv.QUOTE_NONE))
    notes = [row for row in rows if row["refusals"].startswith("note: ")]
    for row in rows:
        (check_note if row in notes else check_row)(row)
    return Counts({"rows of refusals": len(rows) - len(notes), "rows of notes": len(notes)})


# Altered examples.


def nodes_in(node: Node) -> Iterator[Node]:
    yield node
    for part in (
        node.value.values()
        if isinstance(node.value, dict)
        else node.value
        if isinstance(node.value, list)
        else ()
    ):
        yield from nodes_in(part)


def alterations(data: bytes) -> Iterator[tuple[bytes, int]]:
    """Texts with one thing altered, each with the byte that is wrong, if it is refused for that."""
    for node in nodes_in(read_places(data)):
        for odd in ODD:
            yield data[: node.at] + odd.encode() + data[node.end :], node.at
        if isinstance(node.value, dict):
            yield data[: node.at + 1] + b'"zzz": 0, ' * bool(node.value) + data[
                node.at + 1 :
            ], node.at + 1
            for name, at in node.names.items():
                end = at + len(name) + 2
                yield data[: end - 1] + data[end - 2 :], at  # its last letter twice
                yield without_member(data, node, name), node.at


def without_member(data: bytes, node: Node, name: str) -> bytes:
    names = list(node.names)
    k, begin, end = names.index(name), node.names[name], node.value[name].end
    if k + 1 < len(names):
        end = node.names[names[k + 1]]
    elif k:
        begin = node.value[names[k - 1]].end
    return data[:begin] + data[end:]


def spot_of(refusal: str, top: Node) -> Node | None:
    """The value of a refusal's spot, or none where it has none."""
    found = re.fullmatch(
        r".* (?:top|(device|routine|window) (\d+)|(down|command|turn|run) (\d+)\.(\d+))", refusal
    )
    if found is None:
        return None
    kind, number, inner_kind, i, j = found.groups()
    spot = top
    steps: list[str | int] = [f"{kind}s", int(number) - 1] if kind else []
    if inner_kind:
        outer, inner = INNER[inner_kind]
        steps = [outer, int(i) - 1, inner, int(j) - 1]
    for step in steps:
        spot = spot.value[step]
    return spot


def check_first(data: bytes) -> tuple[str | None, list[Mistake], Node | None]:
    """The refusal and the first mistake, which is it and stands within its spot."""
    refusal = refusal_of(data)[1]
    mistakes, _ = explained(data)
    need(
        (mistakes[0].refusal if mistakes else None) == refusal,
        data.decode("utf-8", "replace"),
        refusal,
        mistakes[:1],
    )
    has_spot = refusal and refusal != "not json" and not refusal.startswith("too many bytes")
    spot = spot_of(refusal, read_places(data)) if refusal and has_spot else None
    if spot is not None:
        need(spot.at <= mistakes[0].at < spot.end, data.decode(), refusal, mistakes[0])
    return refusal, mistakes, spot


def check_alterations() -> Counts:
    counts = Counts()
    for name in examples():
        for data, byte in alterations(example(name)):
            refusal, mistakes, spot = check_first(data)
            if refusal is None:
                counts["altered and read"] += 1
            elif spot is None or spot.at <= byte < spot.end:
                need(
                    mistakes[0].at == byte,
                    data.decode(),
                    refusal,
                    position(data, byte),
                    mistakes[0],
                )
                counts["altered and refused, at the byte altered"] += 1
            else:
                counts["altered and refused, at another spot"] += 1
    return counts


def cut_of(data: bytes, text: bytes) -> tuple[int, int, bytes]:
    """The bytes that were altered: from where, up to where, and what stands there."""
    begin = len(os.path.commonprefix([data, text]))
    rest = min(len(data), len(text)) - begin
    same = min(len(os.path.commonprefix([data[::-1], text[::-1]])), rest)
    return begin, len(data) - same, text[begin : len(text) - same]


def single_cuts(data: bytes, draw: random.Random) -> Iterator[tuple[int, int, bytes, int, str]]:
    """Of 120 alterations those that are refused at their byte: what was cut, the byte and the
    refusal.
    """
    for text, byte in draw.sample(list(alterations(data)), 120):
        mistakes, _ = explained(text)
        if mistakes and mistakes[0].at == byte:
            yield *cut_of(data, text), byte, mistakes[0].refusal


def check_pairs(draw: random.Random) -> Counts:
    counts = Counts()
    for name in examples():
        data = example(name)
        cuts = list(single_cuts(data, draw))
        for _ in range(250):
            one, other = sorted(draw.sample(cuts, 2))
            (begin, end, words, first, _), (at, stop, more, second, refusal) = one, other
            if at - end < 5 or begin <= second < end + 5:
                continue  # they touch
            text = data[:begin] + words + data[end:at] + more + data[stop:]
            told = {mistake.at for mistake in explained(text)[0]}
            need(first in told, text.decode(), position(text, first))
            second += len(words) - (end - begin) if second >= end else 0
            hangs = re.match(
                "bad state|unknown name", refusal
            )  # on a device or a list that the first one spoils
            need(second in told or hangs, text.decode(), position(text, second))
            counts[
                "two altered, both told"
                if second in told
                else "two altered, the second hanging on the first"
            ] += 1
    return counts


def check_drawn(count: int, seed: int) -> Counts:
    draw, counts = random.Random(seed), Counts()
    for k in range(2 * count):
        script = days.with_picks(draw, days.day(draw))
        data = days.spoiled(draw, script if k < count else days.guarded(draw, script)).encode()
        refusal, mistakes, _ = check_first(data)
        explanation("script", data)
        counts["drawn and refused" if refusal else "drawn and read"] += 1
        counts["mistakes told of these"] += len(mistakes)
    return counts


def main() -> None:
    options = argparse.ArgumentParser(
        description=__doc__, formatter_class=argparse.RawDescriptionHelpFormatter
    )
    options.add_argument("days", type=int, nargs="?", default=2000)
    options.add_argument("seed", type=int, nargs="?", default=1)
    asked = options.parse_args()
    checks: list[Callable[[], Counts]] = [
        check_table,
        lambda: check_reader(random.Random(asked.seed)),
        check_alterations,
        lambda: check_pairs(random.Random(asked.seed)),
        lambda: check_drawn(asked.days, asked.seed),
    ]
    try:
        for check in checks:
            for kind, number in check().items():
                print(f"{number:7} {kind}", flush=True)
    except Otherwise as why:
        sys.exit(f"check_explain: {why}")


if __name__ == "__main__":
    main()
