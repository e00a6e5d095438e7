"""Tells the record of a day in sentences: who waited for whom, who was taken back and why, what was
undone, what is down.

With its trace (`--trace`) each run is told step by step, with its waits and what was undone to
what; without, how it ended. Of a wait is told what the history shows: what a grip that is out keeps
waiting it does not. The first lines say what the check of records finds. A record that was cut is
told as far as it goes.
"""
import re
from collections.abc import Iterator
from typing import Any, NamedTuple

from lazbendix.choice import Choice
from lazbendix.records import Answer, Day, Retelling, Wait, read_day, stands_before
from lazbendix.reference.check import Differs, check_record
from lazbendix.reference.history import (
    Arrived,
    Cause,
    Did,
    Doomed,
    DownAtEnd,
    Ended,
    Entry,
    Fell,
    Lost,
    MustDown,
    Placed,
    Refuted,
    Revoked,
    Rose,
    Undid,
)
from lazbendix.reference.hub import Behind, Denied, Dirty, Follow, Strict
from lazbendix.reference.record import time_text
from lazbendix.reference.script import Script
from lazbendix.reference.serial import DOWN, FINE, SKIPPED, Command, Failed, Guard, Ran
from lazbendix.terminal import Colours

MODELS = {
    "ev": "eventual visibility (ev)",
    "psv": "partitioned strict visibility (psv)",
    "gsv": "global strict visibility (gsv)",
    "wv": "weak visibility (wv), which claims no order and takes nothing back",
}
SCHEDULERS = {
    "fcfs": "first come first served (fcfs)",
    "jit": "just in time (jit)",
    "timeline": "by the timeline (timeline)",
}


class Said(NamedTuple):
    text: str
    lines: tuple[int, ...] = ()  # of the record that it tells
    depth: int = 0


def some(count: int, what: str) -> str:
    return f"{count} {what}{'' if count == 1 else 's'}"


def ordinal(number: int) -> str:
    ending = (
        "th" if number % 100 in (11, 12, 13) else {1: "st", 2: "nd", 3: "rd"}.get(number % 10, "th")
    )
    return f"{number}{ending}"


def listed(words: list[str]) -> str:
    return " and ".join([", ".join(words[:-1]), words[-1]] if words[1:] else words)


def guard_words(when: Guard | None) -> str:
    """When a command with this guard is done."""
    return f" if {'' if when.word == 'is' else 'less than '}{when.value} is loaded" if when else ""


class WindowTeller:
    """Tells a window of a day; with `undos_alone` it notes of the entries what was undone, and no
    more."""

    def __init__(self, script: Script, day: Day, number: int, undos_alone: bool = False) -> None:
        self.script, self.mode, self.number = script, day.mode, number
        self.window, self.told = script.windows[number], day.windows[number]
        self.first = stands_before(script, day, number)
        self.again = Retelling(script, number, day.mode, self.first, self.told)
        self.hub, self.history = self.again.hub, self.again.history
        self.traced = bool(self.told.entries)
        self.asked: dict[tuple[int, int], str] = {}  # what `command` has said so far
        self.done: dict[int, str] = {}  # what `happened` has said so far of entries
        self.of_run: dict[int, list[tuple[int, Entry, str]]] = {
            run: [] for run in range(1, len(self.window.runs) + 1)
        }
        self.of_devices: list[tuple[int, str]] = []  # with the number of the line, as of a run
        for k, entry in self.again.steps():
            if not undos_alone or isinstance(entry, Undid):
                self.note(k, entry)
        self.waits: dict[int, list[Wait]] = {run: [] for run in self.of_run}
        for wait in self.again.waits:
            self.waits[wait.run].append(wait)

    # Names.

    def device(self, d: int) -> str:
        return self.script.devices[d].name

    def name(self, run: int) -> str:
        return self.script.routines[self.window.runs[run - 1].routine].name

    def called(self, run: int) -> str:
        return f"run {run} ({self.name(run)})"

    def commands(self, run: int) -> list[Command]:
        return self.script.routines[self.window.runs[run - 1].routine].commands

    def value(self, d: int, value: int | None) -> str:
        return "" if value is None else self.script.devices[d].word(value)

    def command(self, run: int, c: int) -> str:
        """The command as it is asked for."""
        key = self.window.runs[run - 1].routine, c
        if key not in self.asked:
            self.asked[key] = self.command_words(self.commands(run)[c])
        return self.asked[key]

    def command_words(self, command: Command) -> str:
        name, best = self.device(command.device), guard_words(command.when) + (
            "" if command.must else ", best effort"
        )
        match command.job:
            case "set":
                return f"{name} := {self.value(command.device, command.value)}{best}"
            case "check":
                return f"is {name} {self.value(command.device, command.value)}?{best}"
            case "load":
                return f"load {name}{best}"
        return f"{name} := what was loaded{best}"

    def answered(self, run: int, c: int, answer: Answer, driven: str | None = None) -> str:
        if answer == DOWN:
            return "it was down"
        if answer == SKIPPED:
            return "skipped"
        if isinstance(answer, int):
            return f"it was {self.value(self.commands(run)[c].device, answer)}"
        return "done" if driven is None else f"done, with {driven}"

    # The history.

    def note(self, k: int, entry: Entry) -> None:
        line = self.told.entry_lines[k]
        match entry:
            case Did(run, c, answer):
                command = self.commands(run)[c]
                driven = None
                if command.job == "store" and answer == FINE:
                    driven = self.value(command.device, self.history.wrote[run][command.device])
                self.of_run[run].append(
                    (
                        line,
                        entry,
                        f"{c + 1}. {self.command(run, c)}: {self.answered(run, c, answer, driven)}",
                    )
                )
            case Undid(run, d, drove):
                value = self.value(d, self.hub.standing_value(d))
                words = (
                    f"{self.device(d)} was driven back to {value}"
                    if drove
                    else f"{self.device(d)} was not driven, since it was down; it is to stand at "
                    f"{value}"
                )
                self.of_run[run].append((line, entry, words))
            case Fell(d):
                self.of_devices.append(
                    (line, f"{self.device(d)} stopped answering{self.met(k, d)}")
                )
            case Rose(d):
                value = self.value(d, self.hub.standing_value(d))
                self.of_devices.append(
                    (line, f"{self.device(d)} was back: a probe found it, and drove it to {value}")
                )
            case _:
                self.of_run[entry.run].append((line, entry, ""))

    def met(self, k: int, d: int) -> str:
        """Who was told first that the device had failed: the run whose entry stands behind it, or a
        probe alone."""
        match self.told.entries[k + 1 : k + 2]:
            case [Did(run, c, answer)] if answer == DOWN and self.commands(run)[c].device == d:
                return f": run {run} was told so at its command {c + 1}"
            case [Undid(run, other, False)] if other == d:
                return f": run {run} was told so as it took back what it had done"
        return ": a probe met it"

    def cause(self, run: int, cause: Cause) -> str:
        match cause:
            case MustDown(c):
                return f"its command {c + 1}, {self.command(run, c)}, found the device down"
            case Refuted(c, found):
                d = self.commands(run)[c].device
                return (
                    f"its command {c + 1}, {self.command(run, c)}, found {self.device(d)} at "
                    f"{self.value(d, found)}"
                )
            case Lost(d):
                return (
                    f"{self.device(d)} stopped answering between its first and its last command "
                    "there"
                )
            case Revoked(lender, d, deadline, moment):
                return (
                    f"it had {self.device(d)} on lease from {self.called(lender)} until {deadline} "
                    "ms, and was not done there "
                    f"when that one asked for it at {moment} ms"
                )
            case DownAtEnd(d):
                return (
                    f"{self.device(d)}, which it had used, was down at its end, and no run commits "
                    f"so under {self.mode.model}"
                )

    # The runs.

    def lines_of(self, run: int, *kinds: type) -> tuple[int, ...]:
        return tuple(line for line, entry, _ in self.of_run[run] if isinstance(entry, kinds))

    def run(self, run: int) -> Iterator[Said]:
        lines = self.lines_of(run, Doomed, Ended) + (self.told.run_lines.get(run, 0),) * (
            run in self.told.run_lines
        )
        head = f"{self.called(run).capitalize()}"
        dooms = [entry.cause for _, entry, _ in self.of_run[run] if isinstance(entry, Doomed)]
        ends = [entry for _, entry, _ in self.of_run[run] if isinstance(entry, Ended)]
        if run in self.told.ends:
            cause = self.told.ends[run]
            yield Said(
                f"{head} committed."
                if cause is None
                else f"{head} was taken back: {self.cause(run, cause)}.",
                lines,
                1,
            )
        elif ends and ends[0].cause is None:
            yield Said(f"{head} committed.", lines, 1)
        elif dooms:
            yield Said(
                f"{head} {'was taken back' if ends else 'was being taken back'}: "
                f"{self.cause(run, dooms[0])}.",
                lines,
                1,
            )
        else:
            yield Said(f"{head} had not ended where the record is cut.", lines, 1)
        yield from self.steps_of(run) if self.traced else self.answers_of(run)

    def answers_of(self, run: int) -> Iterator[Said]:
        """What the line of the run tells of its commands, where there is no trace."""
        if run in self.told.answers:
            answers = enumerate(self.told.answers[run])
            words = [
                f"{c + 1}. {self.command(run, c)}: {self.answered(run, c, answer)}"
                for c, answer in answers
            ]
            yield Said("; ".join(words) + ".", (self.told.run_lines[run],), 2)
        elif self.told.ends.get(run) is not None:
            yield Said("What it had done and what was undone only a trace tells: --trace.", (), 2)

    def steps_of(self, run: int) -> Iterator[Said]:
        yield from self.came(run)
        done = [(line, words) for line, entry, words in self.of_run[run] if isinstance(entry, Did)]
        rest = [
            f"{c + 1}. {self.command(run, c)}: not begun"
            for c in range(len(done), len(self.commands(run)))
        ]
        lines = tuple(line for line, _ in done) + (
            (self.told.run_lines[run],) if run in self.told.answers else ()
        )
        yield Said("; ".join([words for _, words in done] + rest) + ".", lines, 2)
        for wait in self.waits[run]:
            yield Said(f"{self.waited(wait)}.", (), 2)
        if self.lines_of(run, Doomed):
            yield from self.taken_back(run)

    def came(self, run: int) -> Iterator[Said]:
        words, follows = [], self.window.runs[run - 1].follows
        for line, entry, _ in self.of_run[run]:
            if isinstance(entry, Arrived):
                words.append(f"came at {entry.moment} ms")
            if isinstance(entry, Placed):
                behind = f", once {self.called(follows)} had ended" if follows else ""
                words.append(
                    f"got the {ordinal(entry.place + 1)} place in the line (place {entry.place}) "
                    "at "
                    f"{entry.moment} ms{behind}"
                )
        yield Said(
            f"It {listed(words) if words else 'had not come'}.",
            self.lines_of(run, Arrived, Placed),
            2,
        )

    def waited(self, wait: Wait) -> str:
        match wait.why:
            case Follow(x):
                why = f"It waited with its place for the end of {self.called(x)}"
            case Denied(d, x):
                why = (
                    f"It waited with its place for {self.called(x)}, which had {self.device(d)} or "
                    "was not sure of it"
                )
            case Behind(d, x):
                why = (
                    f"It waited at {self.device(d)} for {self.called(x)}, which was before it and "
                    "not done there"
                )
            case Dirty(d, x):
                why = (
                    f"It waited before it read {self.device(d)} for {self.called(x)}, whose write "
                    "there might be taken back"
                )
            case Strict(x):
                why = f"It waited for the end of {self.called(x)}, as {self.mode.model} asks"
        if wait.until is None:
            return f"{why}, to the end of the record"
        if wait.until not in self.done:
            self.done[wait.until] = self.happened(self.told.entries[wait.until])
        return f"{why}, until {self.done[wait.until]}"

    def happened(self, entry: Entry) -> str:
        """An entry in a few words."""
        match entry:
            case Arrived(run, moment):
                return f"run {run} came at {moment} ms"
            case Placed(run, _, _):
                return f"run {run} was placed"
            case Did(run, c, _):
                return f"command {c + 1} of run {run} was answered"
            case Undid(run, d, _):
                return f"run {run} had taken back what it did on {self.device(d)}"
            case Fell(d):
                return f"{self.device(d)} failed"
            case Rose(d):
                return f"{self.device(d)} was back"
            case Doomed(run, _):
                return f"run {run} was to be taken back"
            case Ended(run, cause):
                return f"run {run} {'committed' if cause is None else 'was taken back'}"

    def taken_back(self, run: int) -> Iterator[Said]:
        wrote = [d for d in self.history.wrote[run]]
        if self.mode.model == "wv":
            stays = (
                f": what it wrote on {listed([self.device(d) for d in wrote])} stays"
                if wrote
                else ""
            )
            yield Said(f"The weak model takes nothing back{stays}.", (), 2)
            return
        undone = [
            (line, entry.device, words)
            for line, entry, words in self.of_run[run]
            if isinstance(entry, Undid)
        ]
        if undone:
            yield Said(
                f"Undone: {'; '.join(words for _, _, words in undone)}.",
                tuple(line for line, _, _ in undone),
                2,
            )
        left = (
            [self.device(d) for d in wrote if d not in self.history.undone[run]]
            if run in self.history.ends
            else []
        )
        if left:
            yield Said(
                f"Not undone: {listed(left)}, since a run after it in the line wrote there.",
                (),
                2,
            )
        if not wrote:
            yield Said("It had written nothing, so nothing was undone.", (), 2)

    # The window.

    def tell(self, runs: list[int] | None = None) -> Iterator[Said]:
        """The window in sentences, with these of its runs, or with all."""
        ends = list(self.told.ends.values())
        head = (
            f"Window {self.number + 1} of {len(self.script.windows)}, {time_text(self.window.at)}: "
        )
        head += some(len(self.window.runs), "run")
        if len(ends) == len(self.window.runs):
            head += f"; {ends.count(None)} committed, {len(ends) - ends.count(None)} taken back"
        yield Said(f"{head}.", (self.told.line,))
        for run in self.of_run if runs is None else runs:
            yield from self.run(run)
        if self.of_devices:
            lines = tuple(line for line, _ in self.of_devices)
            yield Said(f"Devices: {'; '.join(words for _, words in self.of_devices)}.", lines, 1)
        if self.told.order_line:
            yield Said(self.order(), (self.told.order_line,), 1)
        if self.told.home_line:
            yield Said(self.home(), (self.told.home_line,), 1)

    def order(self) -> str:
        if self.told.order is None:
            return "Order: the weak model claims none."
        if not self.told.order:
            return (
                "Order: there is nothing in it, since no run committed and no device failed or "
                "came back."
            )
        words = [
            self.called(item.run)
            if isinstance(item, Ran)
            else f"{self.device(item.device)} {'fails' if isinstance(item, Failed) else 'is back'}"
            for item in self.told.order
        ]
        runs = [item.run for item in self.told.order if isinstance(item, Ran)]
        commits = [
            entry.run
            for entry in self.told.entries
            if isinstance(entry, Ended) and entry.cause is None
        ]
        also = (
            f" They committed in the order {', '.join(map(str, commits))}."
            if commits and commits != runs
            else ""
        )
        return (
            "Order: answers and home are as if it had gone so, one after another: "
            f"{', then '.join(words)}.{also}"
        )

    def home(self) -> str:
        changed, same, down = [], [], []
        for d, (before, after) in enumerate(zip(self.first, self.told.last or [])):
            value = self.value(d, after.value)
            if before.value == after.value:
                same.append(f"{self.device(d)} {value}")
            else:
                changed.append(f"{self.device(d)} {self.value(d, before.value)} -> {value}")
            if not after.up:
                down.append(f"{self.device(d)}, which is to stand at {value}")
        if not self.script.devices:
            return "Home: there is no device."
        words = f"changed: {', '.join(changed)}" if changed else "nothing changed"
        words += f"; as before: {', '.join(same)}" if same else ""
        return f"Home: {words}. " + (f"Down: {'; '.join(down)}." if down else "No device is down.")


def verdict(script: Script, text: str, day: Day) -> str:
    """What the check of records finds."""
    if day.mode.model == "wv":
        return "The check of records does not judge the weak model."
    try:
        check_record(script, text.encode())
        return (
            "The check of records agrees: answers and homes are those of the orders that are "
            "printed."
        )
    except Differs as differs:
        return (
            f"The check of records does not agree: {differs}. What follows is what the record says."
        )


def sentences(script: Script, text: str, choice: Choice = Choice()) -> Iterator[Said]:
    """The summary of a record, sentence by sentence. Raises `Unread`."""
    day = read_day(script, text)
    shown = choice.numbers(script, day)
    counts = (
        f"{some(len(script.windows), 'window')}, "
        f"{some(sum(len(window.runs) for window in script.windows), 'run')}"
    )
    yield Said(
        f"A day under {MODELS[day.mode.model]}, {SCHEDULERS[day.mode.scheduler]}: {counts}.", (1, 2)
    )
    if day.total_line:
        yield Said(verdict(script, text, day))
    else:
        yield Said(
            f"The record was cut behind line {day.lines}: the program ended with another status "
            "than 0, which its line on "
            "standard error tells."
        )
    for number in shown:
        yield from WindowTeller(script, day, number).tell(choice.runs(script, day, number))
    if day.total_line and choice == Choice():
        yield total_told(script, day)


def total_told(script: Script, day: Day) -> Said:
    """What came of the day in all."""
    ends = [cause for window in day.windows for cause in window.ends.values()]
    stands = stands_before(script, day, len(day.windows))
    down = [device.name for device, stand in zip(script.devices, stands) if not stand.up]
    counts = (
        f"{some(len(day.windows), 'window')}, {some(len(ends), 'run')}, {ends.count(None)} "
        "committed, "
    )
    counts += f"{len(ends) - ends.count(None)} taken back."
    return Said(
        f"In all: {counts}" + (f" Down at the end: {listed(down)}." if down else ""),
        (day.total_line,),
    )


COMMITTED, TAKEN_BACK = re.compile(r"(?<=\) )committed(?=\.)"), re.compile(
    r"(?<=\) )was (?:being )?taken back(?=:)"
)


def is_short(said: Said) -> bool:
    """Whether the short form has it: windows, runs that were taken back, devices that failed."""
    if said.depth == 0:
        return True
    is_told = TAKEN_BACK.search(said.text) is not None or said.text.startswith("Devices:")
    return said.depth == 1 and is_told


def painted(text: str, colours: Colours) -> str:
    """A sentence with what came of its run in colours."""
    text = COMMITTED.sub(lambda found: colours.paint("good", found[0]), text)
    return TAKEN_BACK.sub(lambda found: colours.paint("bad", found[0]), text)


def summary(
    script: Script,
    text: str,
    choice: Choice = Choice(),
    with_lines: bool = False,
    colours: Colours = Colours(),
    short: bool = False,
) -> str:
    """The summary of a record as it is printed. Raises `Unread`."""
    parts = []
    for said in sentences(script, text, choice):
        if short and not is_short(said):
            continue
        lines = (
            f"  [{', '.join(map(str, sorted(set(said.lines))))}]"
            if with_lines and said.lines
            else ""
        )
        words = (
            painted(said.text, colours)
            if said.depth == 1
            else colours.paint("bold", said.text)
            if said.depth == 0
            else said.text
        )
        parts.append(("\n" if said.depth == 0 else "") + "  " * said.depth + words + lines)
    return "\n".join(parts).lstrip("\n") + "\n"


# The day in facts.


def facts_of(script: Script, text: str, choice: Choice = Choice()) -> dict[str, Any]:
    """The record as JSON has it: of each window its runs with their causes, waits and undos, its
    order and its home. Raises `Unread`."""
    day = read_day(script, text)
    windows = [
        window_facts(WindowTeller(script, day, number), choice.runs(script, day, number))
        for number in choice.numbers(script, day)
    ]
    ends = [cause for window in day.windows for cause in window.ends.values()]
    return {
        "model": day.mode.model,
        "scheduler": day.mode.scheduler,
        "whole": bool(day.total_line),
        "check": verdict(script, text, day) if day.total_line else None,
        "counts": {
            "windows": len(day.windows),
            "runs": len(ends),
            "committed": ends.count(None),
            "aborted": len(ends) - ends.count(None),
        },
        "windows": windows,
    }


def window_facts(teller: WindowTeller, runs: list[int]) -> dict[str, Any]:
    """A window with these of its runs."""
    told, printer = teller.told, teller.again.printer
    order = None if told.order is None else [printer.item(item) for item in told.order]
    stands = zip(teller.script.devices, told.last or [])
    return {
        "window": teller.number + 1,
        "at": time_text(teller.window.at),
        "runs": [run_facts(teller, run) for run in runs],
        "order": order,
        "home": {
            device.name: {"value": device.word(stand.value), "up": stand.up}
            for device, stand in stands
        },
    }


def run_facts(teller: WindowTeller, run: int) -> dict[str, Any]:
    """What came of a run."""
    told, printer = teller.told, teller.again.printer
    cause = told.ends.get(run)
    facts: dict[str, Any] = {
        "run": run,
        "routine": teller.name(run),
        "end": None if run not in told.ends else "committed" if cause is None else "aborted",
    }
    if cause is not None:
        facts |= {
            "cause": printer.run(run, told).split(" aborted ")[1],
            "why": teller.cause(run, cause),
        }
    if run in told.answers:
        facts["answers"] = [
            printer.answer(*pair) for pair in zip(teller.commands(run), told.answers[run])
        ]
    if teller.traced:
        facts["waits"] = [
            {"for": getattr(wait.why, "run", None), "why": teller.waited(wait)}
            for wait in teller.waits[run]
        ]
        facts["undone"] = [
            words for _, entry, words in teller.of_run[run] if isinstance(entry, Undid)
        ]
    return facts
