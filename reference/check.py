"""The check of a record: whether its script, executed serially in the order that it prints, gives
what it prints.

It knows nothing of the hub. The lines of a trace are passed over.
"""
from __future__ import annotations

import re

from .history import MOST
from .record import time_text
from .script import DeviceText, Script
from .serial import DOWN, FINE, SKIPPED, Answer, Back, Command, Failed, Item, Ran, Stand, execute

NUMBER = re.compile(r"0|[1-9][0-9]{0,19}", re.ASCII)
EVENT = re.compile(r"(fail|back)\(([^()]*)\)")
STAND = re.compile(r"([^=]*)=([^!]*)(!?)")
HEADS = ["model gsv fcfs", "model psv fcfs", "model ev fcfs", "model ev jit", "model ev timeline"]


class Differs(Exception):
    """The first place that is not as the script and the order have it: a window from 1, or 0 for
    the head, and a word.
    """

    def __init__(self, window: int, place: str) -> None:
        super().__init__(f"window {window} {place}")
        self.window = window


def number_in(word: str, most: int = MOST) -> int | None:
    """The number that the word is, without leading zeros, or none."""
    return int(word) if NUMBER.fullmatch(word) and int(word) <= most else None


def lines_of(text: bytes) -> list[str]:
    """The lines but for the trace. What stands behind the last line feed is none, and no line of
    any form.
    """
    *lines, rest = text.decode("utf-8", "replace").split("\n")
    lines = [line for line in lines if not line.startswith("# ")]
    return lines + ["\n"] if rest and not rest.startswith("# ") else lines


def value_in(device: DeviceText, word: str) -> int | None:
    if device.states:
        return device.states.index(word) if word in device.states else None
    value = number_in(word, 2**32 - 1)
    return value if value is not None and device.kind.has_value(value) else None


class WindowChecker:
    def __init__(self, script: Script, number: int, stands: list[Stand], lines: list[str]) -> None:
        self.script, self.window, self.number = script, script.windows[number], number + 1
        self.stands, self.lines = stands, lines
        self.kinds = [device.kind for device in script.devices]
        self.names = {device.name: d for d, device in enumerate(script.devices)}
        self.committed: dict[int, list[Answer]] = {}  # of each run

    def need(self, true: bool, place: str) -> None:
        if not true:
            raise Differs(self.number, place)

    def next(self) -> str:
        return self.lines.pop(0) if self.lines else "\n"

    def check(self) -> tuple[list[Stand], int]:
        """The state of the home after the window, and how many of its runs are said to have
        committed.
        """
        self.need(self.next() == f"window {self.number} {time_text(self.window.at)}", "window")
        for run in range(1, len(self.window.runs) + 1):
            self.read_run(run)
        for item in self.read_order():
            self.execute(item)
        self.check_home()
        return self.stands, len(self.committed)

    def commands(self, run: int) -> list[Command]:
        return self.script.routines[self.window.runs[run - 1].routine].commands

    def read_run(self, run: int) -> None:
        name = self.script.routines[self.window.runs[run - 1].routine].name
        words = self.next().split(" ")
        self.need(words[:3] == ["run", str(run), name], f"run {run}")
        if words[3:4] == ["committed"]:
            self.need(len(words) == 4 + len(self.commands(run)), f"run {run}")
            self.committed[run] = [
                self.read_answer(run, *told) for told in zip(self.commands(run), words[4:])
            ]
        else:
            self.need(
                words[3:4] == ["aborted"] and self.is_cause(self.commands(run), words[4:]),
                f"run {run}",
            )

    def read_answer(self, run: int, command: Command, word: str) -> Answer:
        if (
            word == DOWN
            or (word == FINE and command.writes)
            or (word == SKIPPED and command.when is not None)
        ):
            return word
        value = value_in(self.script.devices[command.device], word) if command.reads else None
        if value is None:
            raise Differs(self.number, f"run {run}")
        return value

    def is_cause(self, commands: list[Command], words: list[str]) -> bool:
        """Whether the words have the form of a cause."""

        def command(word: str) -> Command | None:
            c = number_in(word)
            return commands[c - 1] if c is not None and 1 <= c <= len(commands) else None

        match words:
            case ["must", c]:
                return command(c) is not None
            case ["refuted", c, "found", value]:
                asked = command(c)
                device = asked and self.script.devices[asked.device]
                return device is not None and value_in(device, value) is not None
            case [("lost" | "downatend"), name]:
                return name in self.names
            case ["revoked", name, "by", run, "deadline", deadline, "at", moment]:
                is_run = 1 <= (number_in(run) or 0) <= len(self.window.runs)
                return (
                    name in self.names
                    and is_run
                    and None not in (number_in(deadline), number_in(moment))
                )
        return False

    def read_order(self) -> list[Item]:
        words = self.next().split(" ")
        self.need(words[0] == "order" and len(words) > 1, "order 0")
        items, ups = list[Item](), [stand.up for stand in self.stands]
        for k, word in enumerate(words[1:] if words[1:] != ["none"] else [], 1):
            item = self.read_item(word, items, ups)
            if item is None:
                raise Differs(self.number, f"order {k}")
            items.append(item)
        self.need(
            len([item for item in items if isinstance(item, Ran)]) == len(self.committed), "order 0"
        )
        return items

    def read_item(self, word: str, before: list[Item], ups: list[bool]) -> Item | None:
        """The item, or none where it is none or may not stand behind those before it."""
        event = EVENT.fullmatch(word)
        if event:
            device = self.names.get(event[2])
            if device is None or ups[device] != (event[1] == "fail"):
                return None
            ups[device] = event[1] == "back"
            return Back(device, 0) if ups[device] else Failed(device, 0)
        run = number_in(word)
        if run is None or run not in self.committed or Ran(run) in before:
            return None
        leader = self.window.runs[run - 1].follows
        if leader is not None and leader in self.committed and Ran(leader) not in before:
            return None
        return Ran(run)

    def execute(self, item: Item) -> None:
        if not isinstance(item, Ran):
            self.stands[item.device] = Stand(self.stands[item.device].value, isinstance(item, Back))
            return
        register = 0
        for c, (command, told) in enumerate(
            zip(self.commands(item.run), self.committed[item.run]), 1
        ):
            answer, register = execute(self.stands, self.kinds, command, register)
            self.need(answer == told and not command.fails(answer), f"answer {item.run}.{c}")

    def check_home(self) -> None:
        words, devices = self.next().split(" "), self.script.devices
        if not devices:
            self.need(words == ["home", "none"], "home")
            return
        self.need(words[0] == "home" and len(words) == len(devices) + 1, "home")
        told = []
        for device, word in zip(devices, words[1:]):
            found = STAND.fullmatch(word)
            value = value_in(device, found[2]) if found and found[1] == device.name else None
            if found is None or value is None:
                raise Differs(self.number, "home")
            told.append(Stand(value, found[3] == ""))
        for device, one, other in zip(devices, told, self.stands):
            self.need(one == other, f"device {device.name}")


def check_record(script: Script, text: bytes) -> None:
    """Raises the first place at which the record does not agree."""
    lines = lines_of(text)
    if lines[:1] != ["safehome day"] or lines[1:2] == [] or lines[1] not in HEADS:
        raise Differs(0, "head")
    lines = lines[2:]
    stands = [Stand(device.start, True) for device in script.devices]
    runs = committed = 0
    for number, window in enumerate(script.windows):
        stands, done = WindowChecker(script, number, stands, lines).check()
        runs, committed = runs + len(window.runs), committed + done
    total = (
        f"total windows {len(script.windows)} runs {runs} committed {committed} aborted "
        f"{runs - committed}"
    )
    if lines != [total]:
        raise Differs(len(script.windows), "total")
