"""Tells in words what is wrong in a script, all of it, and what is legal in it and surprising.

Of each mistake it tells

    FILE:LINE:COLUMN: error: the refusal in the program's words
        where that is, by names
        what was expected, what stands there, and the nearest name

with the line and a mark below the place. The first one is what the program refuses the script for;
the others it would tell one by one. Lines and columns count from 1, columns in characters. A text
that is no JSON is told where it ends to be one. What is legal and surprising stands behind, as
`note`, in the order of its lines; each kind once, with its other lines. docs/FORMATS.md has the
format, docs/HOW-TO-WRITE.md advice.
"""
from typing import Any

from lazbendix.reference.json_text import position
from lazbendix.reference.script import Refusal, Script, read_script
from lazbendix.script_hints import Hint, Hints, doubled_members, once_each
from lazbendix.script_mistakes import Mistake, mistakes_of
from lazbendix.terminal import Colours

MOST_LETTERS = 96  # of a line that is shown
MOST_PLACES = 20  # of a kind of note that are named
PLAIN = Colours()


def refusal_of(data: bytes) -> tuple[Script | None, str | None]:
    """The script as it is read and none, or none and its refusal."""
    try:
        return read_script(data), None
    except Refusal as refusal:
        return None, str(refusal)


def explained(data: bytes, scheduler: str = "fcfs") -> tuple[list[Mistake], list[Hint]]:
    """The mistakes and the hints of a script; the first mistake is the refusal. Hints on leases are
    for the schedulers that make some."""
    script, refusal = refusal_of(data)
    mistakes, top = mistakes_of(data)
    first = mistakes[0].refusal if mistakes else None
    assert first == refusal, f"the reading and its explanation differ: {refusal}"
    hints: list[Hint] = []
    if script is not None and top is not None:
        hints = Hints(top, script, scheduler).all()
    elif top is not None:
        hints = once_each(list(doubled_members(top, "the day")))
    return mistakes, hints


def shown(data: bytes, at: int, end: int) -> tuple[str, str, str]:
    """The line of a place, or a part of it: what stands before it there, what is marked, and what
    stands behind."""
    begin = data.rfind(b"\n", 0, at) + 1
    stop = (data + b"\n").index(b"\n", at)
    end = min(end, stop)
    cut = [data[a:b].decode("utf-8", "replace") for a, b in [(begin, at), (at, end), (end, stop)]]
    before, marked, behind = ("".join(map(printed, part)) for part in cut)
    if len(before) > MOST_LETTERS // 2:
        before = "…" + before[1 - MOST_LETTERS // 2 :]
    marked = marked[: max(MOST_LETTERS - len(before), 1)]
    return before, marked, behind[: max(MOST_LETTERS - len(before) - len(marked), 0)]


def printed(letter: str) -> str:
    """A letter as it can be printed."""
    return letter if letter.isprintable() else " " if letter.isspace() else "\ufffd"


def places_told(data: bytes, hint: Hint) -> str:
    """Where else a hint holds."""
    if not hint.more:
        return ""
    places = ["{}:{}".format(*position(data, at)) for at in hint.more[:MOST_PLACES]]
    rest = f", and {len(hint.more) - MOST_PLACES} more" if len(hint.more) > MOST_PLACES else ""
    return f" (also at {', '.join(places)}{rest})"


class Teller:
    """Tells mistakes and hints of a script, by what is written; places are bytes of what is read,
    as long."""

    def __init__(self, name: str, written: bytes, colours: Colours) -> None:
        self.name, self.written, self.colours = name, written, colours

    def told(self, kind: str, what: str, place: Mistake | Hint, also: str = "") -> str:
        """One of them, with its line."""
        line, column = position(self.written, place.at)
        before, marked, behind = shown(self.written, place.at, place.end)
        paint = self.colours.paint
        head = f"{self.name}:{line}:{column}: {paint(kind, kind + ':')} {paint('bold', what)}"
        mark = " " * len(before) + paint("mark", "^" * max(len(marked), 1))
        lines = [place.path, place.says + also, f"| {before}{marked}{behind}", f"| {mark}"]
        return "\n".join([head, *(f"    {words}" for words in lines), ""])

    def mistake(self, mistake: Mistake) -> str:
        return self.told("error", f"script: {mistake.refusal}", mistake)

    def hint(self, hint: Hint) -> str:
        return self.told("note", hint.kind, hint, places_told(self.written, hint))


def explanation(
    name: str,
    data: bytes,
    written: bytes | None = None,
    colours: Colours = PLAIN,
    notes: bool = True,
    scheduler: str = "fcfs",
) -> tuple[str, bool]:
    """The text that tells all mistakes and hints, and whether the script is read. The lines are
    shown as they were written, where that has as many bytes."""
    mistakes, hints = explained(data, scheduler)
    hints = hints if notes else []
    as_long = written is not None and len(written) == len(data)
    teller = Teller(name, written if written is not None and as_long else data, colours)
    parts = [*map(teller.mistake, mistakes), *map(teller.hint, hints)]
    if not mistakes:
        told = f", with {len(hints)} note{'s' if hints[1:] else ''}" if hints else ""
        parts.append(f"{name}: the script is read{told}\n")
    elif mistakes[1:]:
        parts.append(
            f"{name}: {len(mistakes)} mistakes; the program refuses it for the first: script: "
            f"{mistakes[0].refusal}\n"
        )
    else:
        parts.append(f"{name}: refused: script: {mistakes[0].refusal}\n")
    return "\n".join(parts), not mistakes


def told_as_json(name: str, data: bytes, scheduler: str = "fcfs") -> dict[str, Any]:
    """The mistakes and the hints, as JSON has them."""
    mistakes, hints = explained(data, scheduler)

    def place(at: int, end: int) -> dict[str, int]:
        line, column = position(data, at)
        end_line, end_column = position(data, max(end, at))
        return {"line": line, "column": column, "endLine": end_line, "endColumn": end_column}

    return {
        "file": name,
        "read": not mistakes,
        "refusal": mistakes[0].refusal if mistakes else None,
        "mistakes": [
            {"refusal": it.refusal, **place(it.at, it.end), "path": it.path, "says": it.says}
            for it in mistakes
        ],
        "notes": [
            {
                "kind": it.kind,
                **place(it.at, it.end),
                "path": it.path,
                "says": it.says,
                "also": [dict(zip(("line", "column"), position(data, at))) for at in it.more],
            }
            for it in hints
        ],
    }
