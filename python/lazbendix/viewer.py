"""Makes a page in which one looks into a day, from its script and its record: one HTML file that
needs no network.

Where the record has its trace, the page shows each window's history, entry by entry. Where it has
none, and is what a replay of the script prints, the history is made anew by that replay; else the
page shows what the record tells. The page's own files are in viewer_page.
"""
import base64
import functools
import json
import os
import re
import zlib
from collections.abc import Iterator

from lazbendix.choice import Choice
from lazbendix.explorer import Explorer, columns
from lazbendix.records import Day, Item, read_day
from lazbendix.reference.check import Differs, check_record
from lazbendix.reference.record import WindowPrinter, window_text
from lazbendix.reference.replay import Home
from lazbendix.reference.script import DeviceText, RoutineText, RunText, Script
from lazbendix.reference.serial import Command, Ran, Stand
from lazbendix.told_windows import Facts, cause_facts, told_history

PARTS = os.path.join(os.path.dirname(os.path.abspath(__file__)), "viewer_page")
ROWS = ("entries", "states", "holds", "downs", "leases", "values")  # of a history
PLAIN_UP_TO = 120_000  # bytes of a record whose page is not packed
PART = re.compile(r"[ ]*<!-- part (\S+) -->\n")


# What the page is told of a window.


class WindowTeller:
    """Tells a window as its record does, with its history where that is known."""

    def __init__(self, script: Script, number: int, day: Day, lines: list[str]) -> None:
        self.script, self.number, self.day, self.lines = script, number, day, lines
        self.window, self.recorded = script.windows[number], day.windows[number]
        self.printer = WindowPrinter(script, number)

    def told(self) -> Facts:
        recorded, order = self.recorded, self.recorded.order
        return {
            "number": self.number + 1,
            "title": recorded.title,
            "runs": [self.run(r, run) for r, run in enumerate(self.window.runs, 1)],
            "order": {
                "line": self.line(recorded.order_line),
                "items": None if order is None else list(map(self.item, order)),
            },
            "home": {
                "line": self.line(recorded.home_line),
                "devices": [
                    self.stand(*pair) for pair in zip(self.script.devices, recorded.last or [])
                ],
            },
            "history": told_history(self.script, self.day, self.number)
            if self.has_history()
            else None,
        }

    def has_history(self) -> bool:
        return bool(self.recorded.entries) or not self.window.runs

    def line(self, number: int) -> str | None:
        return self.lines[number - 1] if number else None

    def run(self, r: int, run: RunText) -> Facts:
        recorded, commands = self.recorded, self.script.routines[run.routine].commands
        told = {
            "routine": run.routine,
            "follows": run.follows,
            "line": self.line(recorded.run_lines.get(r, 0)),
            "end": None,
        }
        if r in recorded.answers:
            return {
                **told,
                "end": "committed",
                "answers": list(map(self.printer.answer, commands, recorded.answers[r])),
            }
        cause = recorded.ends.get(r)
        return (
            {**told, "end": "aborted", "cause": cause_facts(self.script, commands, cause)}
            if cause
            else told
        )

    def item(self, item: Item) -> int | str:
        return item.run if isinstance(item, Ran) else self.printer.item(item)

    @staticmethod
    def stand(device: DeviceText, stand: Stand) -> Facts:
        return {"name": device.name, "value": device.word(stand.value), "down": not stand.up}


# What the page is told of the day.


def replay(script: Script, day: Day, lines: list[str]) -> None:
    """Gives a day without traces the entries of a replay, for as long as that prints what the
    record says."""
    home = Home(script)
    for number, window in enumerate(day.windows):
        record = home.replay(script.windows[number], day.mode)
        if (
            window_text(script, number, record, day.mode, False).split("\n")[:-1]
            != lines[window.line - 1 : window.home_line]
        ):
            return
        window.entries, window.entry_lines = record.entries, [window.line] * len(record.entries)


def device_told(device: DeviceText) -> Facts:
    return {
        "name": device.name,
        "states": device.states,
        "low": device.kind.low,
        "high": device.kind.high,
    }


def routine_told(script: Script, routine: RoutineText) -> Facts:
    def command(command: Command) -> Facts:
        value = (
            None if command.value is None else script.devices[command.device].word(command.value)
        )
        guard = {"when": command.when._asdict()} if command.when else {}
        return {
            "device": command.device,
            "job": command.job,
            "value": value,
            "must": command.must,
            "ms": command.ms,
            "takes": command.takes,
            **guard,
        }

    return {"name": routine.name, "commands": list(map(command, routine.commands))}


def summary(told: Facts) -> Facts:
    """What the list of windows says of a window."""
    ends = [run["end"] for run in told["runs"]]
    entries = told["history"]["entries"] if told["history"] else []
    return {
        "title": told["title"],
        "runs": len(ends),
        "committed": ends.count("committed"),
        "aborted": ends.count("aborted"),
        "failures": sum(entry["kind"] == "fell" for entry in entries),
    }


def verdict(script: Script, record: str) -> str:
    """What the check of records finds: agrees, or the first place that is not as it should be."""
    try:
        check_record(script, record.encode())
    except Differs as differs:
        return str(differs)
    return "agrees"


def day_told(
    script: Script, record: str, title: str, choice: Choice
) -> tuple[Facts, Iterator[tuple[Facts, Facts]]]:
    """The day as the page is told it, and, one after another, each window that is chosen, with what
    the list of windows says of it. The record is a text."""
    day, lines = read_day(script, record), record.split("\n")
    if not any(window.entries for window in day.windows):
        replay(script, day, lines)
    numbers = choice.numbers(script, day)

    def windows() -> Iterator[tuple[Facts, Facts]]:
        for place, number in enumerate(numbers, 1):
            told = {**WindowTeller(script, number, day, lines).told(), "number": place}
            yield told, summary(told)

    return {
        "title": title,
        "model": day.mode.model,
        "scheduler": day.mode.scheduler,
        "head": lines[:2],
        "check": verdict(script, record),
        "total": lines[day.total_line - 1] if day.total_line else None,
        "devices": list(map(device_told, script.devices)),
        "routines": [routine_told(script, routine) for routine in script.routines],
        "choice": {"run": choice.run, "device": choice.device, "aborted": choice.aborted},
    }, windows()


# The page is put together.


def data_block(name: str, data: Facts) -> str:
    """A block of data that a page may hold, whatever texts are in it."""
    text = json.dumps(data, separators=(",", ":"), ensure_ascii=True).replace("<", "\\u003c")
    return f'<script type="application/json" id="{name}">{text}</script>\n'


def packed_block(name: str, data: Facts) -> str:
    """A block of packed data, which the page unpacks when it is looked at."""
    packed = zlib.compress(json.dumps(data, separators=(",", ":")).encode(), 6)
    return (
        '<script type="application/zlib" '
        f'id="{name}">{base64.b64encode(packed).decode()}</script>\n'
    )


def with_columns(window: Facts) -> Facts:
    """A window whose rows are columns."""
    history = window["history"]
    if history is None:
        return window
    told = {name: columns(rows) if name in ROWS else rows for name, rows in history.items()}
    return {**window, "history": told, "packed": True}


@functools.cache
def part_text(name: str) -> str:
    with open(os.path.join(PARTS, name), encoding="utf-8") as stored:
        return stored.read()


def page_of(script: Script, record: str, title: str, choice: Choice = Choice()) -> str:
    """The page of a day, from its script as it is read and the text of its record. A large day is
    packed. Raises `Unread`."""
    day, windows = day_told(script, record, title, choice)
    is_large = len(record) > PLAIN_UP_TO
    explorer, summaries, blocks = Explorer(script), list[Facts](), list[str]()
    for window, about in windows:
        explorer.add(window)
        summaries.append(about)
        name = f"window-{window['number']}"
        blocks.append(
            packed_block(name, with_columns(window)) if is_large else data_block(name, window)
        )
    block = packed_block if is_large else data_block
    blocks[:0] = [
        data_block("day", {**day, "windows": summaries}),
        block("explored", explorer.told()),
    ]

    def part(found: re.Match[str]) -> str:
        name = found[1]
        if name == "data":
            return "".join(blocks)
        tag = "style" if name.endswith(".css") else "script"
        return f"<{tag}>\n{part_text(name)}</{tag}>\n"

    return PART.sub(part, part_text("page.html"))
