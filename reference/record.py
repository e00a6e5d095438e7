"""The text of a day: its head, its windows with or without their trace, its total, and the line of
a board.
"""
from __future__ import annotations

from collections.abc import Mapping, Sequence
from typing import Protocol

from .history import (
    Arrived,
    Cause,
    Did,
    Doomed,
    DownAtEnd,
    Ended,
    Entry,
    Fell,
    Lost,
    Mode,
    MustDown,
    Placed,
    Refuted,
    Revoked,
    Rose,
    Undid,
)
from .script import DeviceText, Script
from .serial import Answer, Command, Failed, Item, Ran, Stand


class HasEnds(Protocol):
    """A window's record as its total has it."""

    @property
    def ends(self) -> Mapping[int, Cause | None]:
        """Of each run that has ended the cause, or none where it committed."""


class HasAnswers(HasEnds, Protocol):
    """A window's record as the lines of its runs have it."""

    @property
    def answers(self) -> Mapping[int, Sequence[Answer]]:
        """Of each run what its commands were answered."""


class Told(HasAnswers, Protocol):
    """A window's record."""

    @property
    def entries(self) -> Sequence[Entry]:
        """The history."""

    @property
    def order(self) -> Sequence[Item]:
        """The serial order."""

    @property
    def last(self) -> Sequence[Stand]:
        """Where the devices stand at the end."""


def head_text(mode: Mode) -> str:
    return f"safehome day\nmodel {mode.model} {mode.scheduler}\n"


def kept_text(count: int) -> str:
    """The line behind the head of a day that is kept."""
    return f"kept {count}\n"


def time_text(at: tuple[int, ...]) -> str:
    return "{:04}-{:02}-{:02}T{:02}:{:02}:{:02}".format(*at)


def total_text(records: Sequence[HasEnds]) -> str:
    runs = sum(len(record.ends) for record in records)
    committed = sum(cause is None for record in records for cause in record.ends.values())
    return (
        f"total windows {len(records)} runs {runs} committed {committed} aborted "
        f"{runs - committed}\n"
    )


def board_text(records: Sequence[HasEnds]) -> str:
    """The line of a watched day, behind its total and with its numbers."""
    return total_text(records).replace("total", "board", 1)


class WindowPrinter:
    """Prints the record of a window, the first as number 0, with the names of its script."""

    def __init__(self, script: Script, number: int) -> None:
        self.script, self.number, self.window = script, number, script.windows[number]
        self.names = [device.name for device in script.devices]

    def commands(self, run: int) -> list[Command]:
        return self.script.routines[self.window.runs[run - 1].routine].commands

    def answer(self, command: Command, answer: Answer) -> str:
        return (
            self.script.devices[command.device].word(answer) if isinstance(answer, int) else answer
        )

    def cause(self, run: int, cause: Cause) -> str:
        match cause:
            case MustDown(c):
                return f"must {c + 1}"
            case Refuted(c, found):
                return f"refuted {c + 1} found {self.answer(self.commands(run)[c], found)}"
            case Lost(device):
                return f"lost {self.names[device]}"
            case Revoked(lender, device, deadline, moment):
                return f"revoked {self.names[device]} by {lender} deadline {deadline} at {moment}"
            case DownAtEnd(device):
                return f"downatend {self.names[device]}"

    def entry(self, entry: Entry) -> str:
        match entry:
            case Arrived(run, moment):
                return f"# arrived {run} at {moment}"
            case Placed(run, place, moment):
                return f"# placed {run} place {place} at {moment}"
            case Did(run, c, answer):
                return f"# did {run}.{c + 1} {self.answer(self.commands(run)[c], answer)}"
            case Undid(run, device, drove):
                return f"# undid {run} {self.names[device]} {'drove' if drove else 'dropped'}"
            case Fell(device):
                return f"# fell {self.names[device]}"
            case Rose(device):
                return f"# rose {self.names[device]}"
            case Doomed(run, cause):
                return f"# doomed {run} {self.cause(run, cause)}"
            case Ended(run, cause):
                return f"# ended {run} {'committed' if cause is None else 'aborted'}"

    def run(self, run: int, record: HasAnswers) -> str:
        begin = f"run {run} {self.script.routines[self.window.runs[run - 1].routine].name}"
        cause = record.ends[run]
        if cause is not None:
            return f"{begin} aborted {self.cause(run, cause)}"
        answers = map(self.answer, self.commands(run), record.answers[run])
        return " ".join([begin, "committed", *answers])

    def item(self, item: Item) -> str:
        if isinstance(item, Ran):
            return str(item.run)
        return f"{'fail' if isinstance(item, Failed) else 'back'}({self.names[item.device]})"

    def stand(self, device: DeviceText, stand: Stand) -> str:
        return f"{device.name}={device.word(stand.value)}{'' if stand.up else '!'}"

    def text(self, record: Told, mode: Mode, trace: bool) -> str:
        lines = [f"window {self.number + 1} {time_text(self.window.at)}"]
        if trace:
            lines += map(self.entry, record.entries)
        lines += [self.run(run, record) for run in record.ends and sorted(record.ends)]
        order = (
            ["unclaimed"] if mode.model == "wv" else list(map(self.item, record.order)) or ["none"]
        )
        lines.append(" ".join(["order", *order]))
        lines.append(
            " ".join(
                ["home", *(list(map(self.stand, self.script.devices, record.last)) or ["none"])]
            )
        )
        return "\n".join(lines) + "\n"


def window_text(script: Script, number: int, record: Told, mode: Mode, trace: bool) -> str:
    return WindowPrinter(script, number).text(record, mode, trace)
