"""Writes a traced record as Chrome trace events, for Perfetto (ui.perfetto.dev) and
chrome://tracing. Both open the file without sending it anywhere.

A window is a process, and has a lane (a thread) for each run and each device. By steps, a step is
drawn as one millisecond: the entry with the number k, from 0, of a window begins at ms k + 1 behind
the window's begin, and a window begins one ms behind the end of the one before; so timestamps are
numbers of steps, and no times. By ms, a window begins at its time behind that of the first one, and
an entry at the moment of the one before: what made it lies between the two. An entry lasts a
microsecond at least. The moments that a record has stand in the arguments of their events. On the
lane of a run lie the run from its arrival to its end, its waits, and its entries; on that of a
device each answer and undo there but for skipped commands, and the stretches in which it is counted
down. An arrow leads from the entry that ended a wait to the run's next entry.
"""
import bisect
import json
import operator
from collections.abc import Callable, Iterator
from typing import Any

from lazbendix.choice import Choice
from lazbendix.moments import moments_of
from lazbendix.next_day import day_number
from lazbendix.records import Day, Unread, Wait, read_day
from lazbendix.reference.history import (
    Arrived,
    Did,
    Doomed,
    Ended,
    Entry,
    Fell,
    Placed,
    Rose,
    Undid,
)
from lazbendix.reference.hub import Busy
from lazbendix.reference.script import Script
from lazbendix.reference.serial import DOWN, SKIPPED
from lazbendix.summary import WindowTeller

quoted: Callable[[str], str] = getattr(json.encoder, "encode_basestring_ascii")  # the quick one
STEP = 1000  # microseconds, the unit of timestamps
DEVICES = 1000  # the lane of the first device; those of the runs have their numbers


class WindowTracer:
    """The events of a window, which begins behind so many steps. Each is made as the text that is
    written of it."""

    def __init__(
        self, script: Script, day: Day, number: int, begin: int, axis: str, runs: list[int]
    ) -> None:
        self.teller = WindowTeller(script, day, number, undos_alone=True)
        self.entries, self.lines = self.teller.told.entries, self.teller.told.entry_lines
        self.pid, self.begin = number + 1, begin
        self.labels = list[str]()
        self.events = list[tuple[int, int, str]]()  # each behind its time and its negative duration
        self.devices = [device.name for device in script.devices]
        self.runs = set(runs)
        self.words = {
            line: words for undos in self.teller.of_run.values() for line, _, words in undos
        }
        self.ats = self.steps() if axis == "step" else self.times(script, number)
        self.end = -(-self.ats[-1] // STEP) + 1
        self.steps_of: dict[int, list[int]] = {}
        self.turns_of: dict[int, list[int]] = {}  # of each device its failures and restarts
        for k, entry in enumerate(self.entries):
            if isinstance(entry, Fell | Rose):
                self.turns_of.setdefault(entry.device, []).append(k)
            else:
                self.steps_of.setdefault(entry.run, []).append(k)

    def steps(self) -> list[int]:
        """Where each entry begins, and where the last one ends: one ms after the other."""
        return [(self.begin + 1 + k) * STEP for k in range(len(self.entries) + 1)]

    def times(self, script: Script, number: int) -> list[int]:
        """The same by the moments: an entry begins at that of the one before, and lasts a
        microsecond at least."""
        ats = [(self.begin + 1) * STEP]
        for moment in moments_of(script, number, self.teller.told):
            ats.append(max((self.begin + 1 + moment) * STEP, ats[-1] + 1))
        return ats

    def slice(self, lane: int, name: str, at: int, until: int, kind: str, args: str) -> None:
        """A slice, but on the lane of a run that is not shown. Its arguments are members of
        JSON.
        """
        if lane >= DEVICES or lane in self.runs:
            text = (
                f'{{"ph":"X","pid":{self.pid},"tid":{lane},"name":{quoted(name)},"ts":{at},'
                f'"dur":{until - at},"cat":"{kind}","args":{{{args}}}}}'
            )
            self.events.append((at, at - until, text))

    def label(self, lane: int, what: str, **args: str | int) -> None:
        event = {"ph": "M", "pid": self.pid, "tid": lane, "name": what, "args": args}
        self.labels.append(json.dumps(event, separators=(",", ":")))

    def all(self) -> list[str]:
        teller = self.teller
        self.label(0, "process_name", name=teller.told.title)
        self.label(0, "process_sort_index", sort_index=self.pid)
        for run in teller.of_run:
            if run in self.runs:
                self.label(run, "thread_name", name=f"run {run} {teller.name(run)}")
                self.run(run)
        for d, name in enumerate(self.devices):
            self.label(DEVICES + d, "thread_name", name=f"device {name}")
            self.down(d)
        for k, entry in enumerate(self.entries):
            self.entry(k, entry)
        for wait in teller.again.waits:
            if wait.run in self.runs:
                self.wait(wait)
        self.events.sort(key=operator.itemgetter(0, 1))
        return self.labels + [text for _, _, text in self.events]

    def next_of(self, run: int, k: int) -> int:
        """The number of the run's first entry behind an entry, or that of the end."""
        steps = self.steps_of.get(run, [])
        place = bisect.bisect_right(steps, k)
        return steps[place] if place < len(steps) else len(self.entries)

    # Stretches.

    def run(self, run: int) -> None:
        mine = self.steps_of.get(run, [])
        if mine:
            ended = isinstance(self.entries[mine[-1]], Ended)
            until = self.ats[mine[-1] + 1 if ended else len(self.entries)]
            name = f"run {run} {self.teller.name(run)}"
            end = f'"end":{quoted(self.end_of(run))}'
            self.slice(run, name, self.ats[mine[0]], until, "run", end)

    def end_of(self, run: int) -> str:
        ends = self.teller.told.ends
        cause = ends.get(run)
        return (
            f"taken back: {self.teller.cause(run, cause)}"
            if cause
            else "committed"
            if run in ends
            else "cut"
        )

    def down(self, d: int) -> None:
        since = 0 if not self.teller.first[d].up else None
        for k in [*self.turns_of.get(d, []), len(self.entries)]:
            is_end = k == len(self.entries)
            if not is_end and isinstance(self.entries[k], Fell):
                since = self.ats[k]
            elif since is not None:
                begin = since or self.ats[0] - STEP
                self.slice(DEVICES + d, "down", begin, self.ats[k], "down", "")
                since = None

    def wait(self, wait: Wait) -> None:
        """The wait up to the entry that ended it, and an arrow to what the run did next."""
        run, since, count = wait.run, wait.since, len(self.entries)
        until = count if wait.until is None else wait.until
        begin, end = self.ats[since + 1], self.ats[until if wait.until is None else until + 1]
        end = min(end, self.ats[self.next_of(run, since)])
        why = type(wait.why).__name__.lower()
        if end > begin and not isinstance(wait.why, Busy):  # of which no history tells
            told = f'"why":{quoted(self.teller.waited(wait))}'
            self.slice(run, f"waits: {why} {wait.why.run}", begin, end, "wait", told)
        after = self.next_of(run, until)
        if after < count:
            self.arrow(wait, until, after, why)

    def arrow(self, wait: Wait, until: int, after: int, why: str) -> None:
        """From the entry that ended a wait to what the run did next, where another one ended it."""
        ender, run = self.entries[until], wait.run
        if isinstance(ender, Fell | Rose):
            lane = DEVICES + ender.device
        elif ender.run != run and ender.run in self.runs:
            lane = ender.run
        else:
            return
        pid, name = self.pid, f'"name":"run {run} goes on"'
        flow = f'"cat":"wait","id":"{pid}.{run}.{wait.since}.{why}"'
        begin, end = self.ats[until], self.ats[after]
        self.events += [
            (begin, 0, f'{{"ph":"s","pid":{pid},"tid":{lane},{name},"ts":{begin},{flow}}}'),
            (end, 0, f'{{"ph":"f","pid":{pid},"tid":{run},{name},"ts":{end},"bp":"e",{flow}}}'),
        ]

    # Entries.

    def entry(self, k: int, entry: Entry) -> None:
        at, until, line = self.ats[k], self.ats[k + 1], f'"line":{self.lines[k]}'
        match entry:
            case Did(run, c, answer):
                command, asked = self.teller.commands(run)[c], self.teller.command(run, c)
                told = f'"answer":{quoted(self.teller.answered(run, c, answer))}'
                args = f'{told},"command":{c + 1},{line}'
                self.slice(run, asked, at, until, "command", args)
                if answer != SKIPPED:
                    name = f"run {run}: {'down' if answer == DOWN else asked}"
                    lane = DEVICES + command.device
                    self.slice(lane, name, at, until, "command", f"{told},{line}")
            case Arrived(run, moment):
                self.slice(run, "arrived", at, until, "step", f'"moment":{moment},{line}')
            case Placed(run, place, moment):
                args = f'"place":{place},"moment":{moment},{line}'
                self.slice(run, f"placed at {place}", at, until, "step", args)
            case Ended(run, cause):
                name = "committed" if cause is None else "ended, taken back"
                self.slice(run, name, at, until, "step", line)
            case Undid(run, d, _):
                args = f'"told":{quoted(self.words[self.lines[k]])},{line}'
                self.slice(run, f"undo {self.devices[d]}", at, until, "undo", args)
                self.slice(DEVICES + d, f"run {run}: undo", at, until, "undo", args)
            case Doomed(run, cause):
                args = f'"cause":{quoted(self.teller.cause(run, cause))},{line}'
                self.slice(run, "doomed", at, until, "step", args)
            case Fell(d) | Rose(d):
                name = "fails" if isinstance(entry, Fell) else "is back"
                self.slice(DEVICES + d, name, at, until, "device", line)


def begin_of(script: Script, number: int) -> int:
    """When a window opens, in ms behind the first one."""

    def seconds(at: tuple[int, ...]) -> int:
        return day_number(at) * 86_400 + at[3] * 3600 + at[4] * 60 + at[5]

    return 1000 * (seconds(script.windows[number].at) - seconds(script.windows[0].at))


def windows_of(
    script: Script, text: str, axis: str = "step", choice: Choice = Choice()
) -> tuple[dict[str, str], Iterator[list[str]]]:
    """What is said of all events, and the events of each window of a traced record that is chosen.
    Raises `Unread`."""
    day = read_day(script, text)
    if any(told.ends and not told.entries for told in day.windows):
        raise Unread("no trace in the record: make it with --trace")
    numbers = choice.numbers(script, day)

    def events() -> Iterator[list[str]]:
        begin = 0
        for number in numbers:
            begin = max(begin, begin_of(script, number) if axis == "ms" else 0)
            runs = choice.runs(script, day, number)
            tracer = WindowTracer(script, day, number, begin, axis, runs)
            yield tracer.all()
            begin = tracer.end

    about = "a step is one ms; no times" if axis == "step" else "ms behind the first window"
    return {
        "model": day.mode.model,
        "scheduler": day.mode.scheduler,
        "timestamps": about,
    }, events()


def trace_text(script: Script, text: str, axis: str = "step", choice: Choice = Choice()) -> str:
    """The events of a traced record as they are written, a window on a line. Raises `Unread`."""
    about, windows = windows_of(script, text, axis, choice)
    told = json.dumps(about, separators=(",", ":"))
    events = ",\n".join(",".join(window) for window in windows)
    return f'{{"displayTimeUnit":"ms","otherData":{told},"traceEvents":[\n{events}\n]}}\n'


def trace_of(
    script: Script, text: str, axis: str = "step", choice: Choice = Choice()
) -> dict[str, Any]:
    """The same, read. Raises `Unread`."""
    read: dict[str, Any] = json.loads(trace_text(script, text, axis, choice))
    return read
