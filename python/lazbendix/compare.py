"""Compares what came of one day: two records of it, or its replays under several models, schedulers
or seeds.

Of each record it counts runs, causes, waits and time; names the runs and the devices that end
otherwise; and of models says which suits the home, and why. A replay has one clock, which each
command moves for all; so times are told as they would be if runs that need not wait go at once
(`moments.Overlapping`).
"""
from collections import Counter
from collections.abc import Callable
from dataclasses import dataclass, field
from typing import Any

from lazbendix.moments import Overlapping
from lazbendix.records import Day, Retelling, read_day, stands_before
from lazbendix.reference.json_text import Node, read_places
from lazbendix.reference.record import WindowPrinter
from lazbendix.reference.script import Script

MODELS = ("ev", "psv", "gsv", "wv")
SCHEDULERS = ("fcfs", "jit", "timeline")
MORE_TIME = 0.05  # of a day that still counts as long
MOST_SHOWN = 20  # runs and devices that end otherwise
NAMES = {"ev": "eventual", "psv": "partitioned strict", "gsv": "global strict", "wv": "weak"}
GIVES = {
    "psv": "no two runs that share a device mix",
    "gsv": "runs go one at a time",
}


@dataclass
class Column:
    """What came of the day in one record."""

    name: str
    model: str
    committed: int = 0
    aborted: int = 0
    causes: Counter[str] = field(default_factory=Counter)
    waits: int | None = 0  # none where the record has no trace
    waited_runs: int = 0
    waited: int = 0  # ms
    longest: int = 0  # ms
    length: int | None = 0  # ms
    ends: dict[tuple[int, int], str] = field(
        default_factory=dict
    )  # of each run: committed, or its cause
    answers: dict[tuple[int, int], str] = field(default_factory=dict)  # of each committed run
    home: list[str] = field(default_factory=list)  # behind the last window


def column_of(script: Script, text: str, name: str) -> Column:
    """What a record says. Raises `Unread`."""
    day = read_day(script, text)
    made = Column(name, day.mode.model)
    for number, told in enumerate(day.windows):
        printer = WindowPrinter(script, number)
        for run, cause in told.ends.items():
            words = printer.run(run, told).split(" ")
            made.ends[number + 1, run] = " ".join(words[4:]) if cause is not None else "committed"
            made.answers[number + 1, run] = " ".join(words[4:])
            made.committed += cause is None
            made.aborted += cause is not None
            if cause is not None:
                made.causes[words[4]] += 1
        if told.ends and not told.entries:
            made.waits = made.length = None
        add_waits(made, script, day, number)
        if told.last is not None:
            made.home = [printer.stand(*pair) for pair in zip(script.devices, told.last)]
    return made


def add_waits(made: Column, script: Script, day: Day, number: int) -> None:
    """Adds the waits and the length of a window."""
    told = day.windows[number]
    if made.waits is None or made.length is None or not told.entries:
        return
    again = Retelling(script, number, day.mode, stands_before(script, day, number), told)
    for _ in again.steps():
        pass
    times = Overlapping(script, number, told, again.waits)
    made.waits += len(again.waits)
    made.waited_runs += len({wait.run for wait in again.waits})
    made.waited += sum(times.waited.values())
    made.longest = max(made.longest, times.longest)
    made.length += times.length


# Tables.


def number(count: int | None) -> str:
    return "-" if count is None else f"{count:,}"


def rows(columns: list[Column]) -> list[list[str]]:
    """What is counted, line by line."""
    causes = sorted({cause for column in columns for cause in column.causes})
    lines: list[tuple[str, Callable[[Column], int | None]]] = [
        ("runs committed", lambda column: column.committed),
        ("runs aborted", lambda column: column.aborted),
        *((f"  {cause}", cause_count(cause)) for cause in causes),
        ("runs that waited", lambda it: None if it.waits is None else it.waited_runs),
        ("waits", lambda column: column.waits),
        ("ms waited", lambda column: None if column.waits is None else column.waited),
        ("longest wait, ms", lambda column: None if column.waits is None else column.longest),
        ("length of the day, ms, runs at once", lambda column: column.length),
    ]
    return [[name, *(number(count(column)) for column in columns)] for name, count in lines]


def cause_count(cause: str) -> Callable[[Column], int | None]:
    return lambda column: column.causes[cause]


def aligned(table: list[list[str]], left: int) -> str:
    """A table whose first cells stand at the left, and the others at the right."""
    widths = [max(len(row[k]) for row in table) for k in range(len(table[0]))]
    lines = [
        "  ".join(
            cell.ljust(width) if k < left else cell.rjust(width)
            for k, (cell, width) in enumerate(zip(row, widths))
        )
        for row in table
    ]
    return "".join(f"{line.rstrip()}\n" for line in lines)


def runs_that_differ(script: Script, columns: list[Column]) -> list[list[str]]:
    """The runs that do not end alike in each record, or are answered otherwise."""
    keys = sorted({key for column in columns for key in column.ends})
    found = []
    for window, run in keys:
        told = [
            (column.ends.get((window, run), "cut"), column.answers.get((window, run), ""))
            for column in columns
        ]
        if len(set(told)) > 1:
            routine = script.routines[script.windows[window - 1].runs[run - 1].routine].name
            ends = [
                f"{end} {answers}".strip() if end == "committed" else end for end, answers in told
            ]
            found.append([f"window {window} run {run} {routine}", *ends])
    return found


def devices_that_differ(script: Script, columns: list[Column]) -> list[list[str]]:
    """The devices that do not stand alike behind the last window."""
    found = []
    for d, device in enumerate(script.devices):
        stands = [column.home[d].partition("=")[2] if column.home else "-" for column in columns]
        if len(set(stands)) > 1:
            found.append([device.name, *stands])
    return found


def part(title: str, heads: list[str], lines: list[list[str]], none: str) -> str:
    """A part of the comparison, as far as it is shown."""
    if not lines:
        return f"{none}\n"
    rest = len(lines) - MOST_SHOWN
    more = f"and {rest} more (--json has all)\n" if rest > 0 else ""
    return aligned([[title, *heads], *lines[:MOST_SHOWN]], len(heads) + 1) + more


def comparison(script: Script, columns: list[Column], with_advice: bool) -> str:
    """The comparison as it is printed."""
    heads = [column.name for column in columns]
    parts = [
        aligned([["", *heads], *rows(columns)], 1),
        part(
            "Runs that differ",
            heads,
            runs_that_differ(script, columns),
            "Every run ends alike, with the same answers.",
        ),
        part(
            "Devices that differ",
            heads,
            devices_that_differ(script, columns),
            "Every device stands alike at the end.",
        ),
    ]
    if with_advice:
        parts.append(advice(script, columns))
    return "\n".join(parts)


def facts_of(script: Script, columns: list[Column], with_advice: bool) -> dict[str, Any]:
    """The comparison as JSON has it."""
    heads = [column.name for column in columns]
    told: dict[str, Any] = {
        "records": [
            {
                "name": it.name,
                "model": it.model,
                "committed": it.committed,
                "aborted": it.aborted,
                "causes": dict(it.causes),
                "waits": it.waits,
                "waitedRuns": None if it.waits is None else it.waited_runs,
                "waitedMs": None if it.waits is None else it.waited,
                "longestMs": None if it.waits is None else it.longest,
                "lengthMs": it.length,
            }
            for it in columns
        ],
        "runs": [dict(zip(["run", *heads], line)) for line in runs_that_differ(script, columns)],
        "devices": [
            dict(zip(["device", *heads], line)) for line in devices_that_differ(script, columns)
        ],
    }
    if with_advice:
        told |= {"suits": suited(columns).model, "why": advice(script, columns).strip()}
    return told


# Which model suits.


def suited(columns: list[Column]) -> Column:
    """The strictest model that aborts no more runs than the eventual one, and whose day is as long
    but for a little."""
    models = {column.model: column for column in columns}
    base = models["ev"]
    for name in ("gsv", "psv"):
        column = models[name]
        if column.aborted <= base.aborted and length(column) <= length(base) * (1 + MORE_TIME):
            return column
    return base


def length(column: Column) -> int:
    return column.length or 0


def against(column: Column, base: Column) -> str:
    """What a model costs, against another."""
    share = 100 * (length(column) - length(base)) / max(length(base), 1)
    more = column.aborted - base.aborted
    time = (
        f"its day is {abs(share):.0f}% {'longer' if share > 0 else 'shorter'}"
        if round(share)
        else "its day is as long"
    )
    which = "more" if more > 0 else "fewer"
    runs = (
        f"{abs(more)} {which} {'run is' if abs(more) == 1 else 'runs are'} aborted"
        if more
        else "as many runs are aborted"
    )
    waits = f"runs wait {column.waited:,} ms in all and not {base.waited:,}"
    return f"{time}, {runs}, and {waits}" if column.waited != base.waited else f"{time}, and {runs}"


def shares_devices(script: Script) -> bool:
    """Whether two runs of some window have a device in common."""
    for window in script.windows:
        used = [
            {command.device for command in script.routines[run.routine].commands}
            for run in window.runs
        ]
        if sum(map(len, used)) > len(set().union(*used)):
            return True
    return False


def advice(script: Script, columns: list[Column]) -> str:
    """Which model suits the home, and why, in sentences."""
    models = {column.model: column for column in columns}
    best, base = suited(columns), models["ev"]
    lines = [f"{best.model} ({NAMES[best.model]}) suits this home."]
    if not shares_devices(script):
        lines.append(
            "No two runs of a window share a device, so no model lets one of them wait for "
            "another's device."
        )
    if best.model == "ev":
        lines.append("A run waits only at a device that an earlier one is not done with.")
        for name in ("psv", "gsv"):
            lines.append(f"Under {name} {GIVES[name]}: {against(models[name], base)}.")
    else:
        lines.append(
            f"Under it {GIVES[best.model]}, and that costs next to nothing here: against ev "
            f"{against(best, base)}."
        )
        if best.model == "psv":
            lines.append(f"Under gsv {GIVES['gsv']}: {against(models['gsv'], base)}.")
    lines.append("wv takes nothing back and claims no order: it is there to be compared with.")
    lines.append("This is said of one replay of this day: --seeds 1-8 plays it by other seeds.")
    return "\n".join(lines) + "\n"


# Other seeds.


def with_seed(data: bytes, seed: int) -> bytes:
    """The script with this seed in each of its windows; all else stays as it is. The script is one
    that is read."""
    top, parts, at = read_places(data), list[bytes](), 0
    for window in top.value["windows"].value:
        begin, end, words = seed_place(window, seed)
        parts += [data[at:begin], words]
        at = end
    return b"".join([*parts, data[at:]])


def seed_place(window: Node, seed: int) -> tuple[int, int, bytes]:
    """Where the seed of a window goes, and what comes there."""
    if "seed" in window.value:
        node = window.value["seed"]
        return node.at, node.end, str(seed).encode()
    return window.at + 1, window.at + 1, f'"seed": {seed}, '.encode()
