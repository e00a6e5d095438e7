"""The record of a day, read with its script line by line, and told again entry by entry.

A line is read where it prints again as it stands; so what is read says all that the record says. A
record that was cut is read as far as it goes. Whether it is true is not asked: that is the check of
records (`reference.check`).
"""
import re
from collections.abc import Iterator
from dataclasses import dataclass, field

from lazbendix.reference.check import value_in
from lazbendix.reference.history import (
    Arrived,
    Cause,
    Did,
    Doomed,
    DownAtEnd,
    Ended,
    Entry,
    Fell,
    History,
    Lost,
    Mode,
    MustDown,
    Placed,
    Refuted,
    Revoked,
    Rose,
    Undid,
)
from lazbendix.reference.hub import WAITS, Behind, Busy, Denied, Dirty, Follow, Hub, Strict
from lazbendix.reference.record import WindowPrinter, head_text, time_text, total_text
from lazbendix.reference.replay import Home
from lazbendix.reference.script import DeviceText, Script
from lazbendix.reference.serial import DOWN, FINE, SKIPPED, Back, Command, Failed, Ran, Stand

Item = Ran | Failed | Back  # of the serial order
Why = Follow | Denied | Busy | Behind | Dirty | Strict  # a run waits
Answer = str | int  # `FINE`, `DOWN`, `SKIPPED`, or the value that a read found

HEAD = re.compile("model (wv|gsv|psv|ev) (fcfs|jit|timeline)")


class Unread(Exception):
    """The record is none of this script."""


class Cut(Exception):
    """The record ends here, and should not."""


@dataclass
class WindowLines:
    """A window of a record; behind what is read, the number of its line, from 1."""

    title: str
    line: int
    entries: list[Entry] = field(default_factory=list)
    entry_lines: list[int] = field(default_factory=list)
    ends: dict[int, Cause | None] = field(
        default_factory=dict
    )  # of each run the cause, or none where it committed
    answers: dict[int, list[Answer]] = field(default_factory=dict)  # of each committed run
    run_lines: dict[int, int] = field(default_factory=dict)
    order: list[Item] | None = None  # none where it is unclaimed or not told
    order_line: int = 0
    last: list[Stand] | None = None  # where each device stands; none where it is not told
    home_line: int = 0


@dataclass
class Day:
    mode: Mode
    windows: list[WindowLines] = field(default_factory=list)
    total_line: int = 0  # 0 where the record was cut
    lines: int = 0  # how many are whole


def some_value(device: DeviceText, word: str) -> int:
    """The value that a word is for the device. Raises `ValueError` where it is none."""
    value = value_in(device, word)
    if value is None:
        raise ValueError(word)
    return value


class WindowReader:
    """Reads the lines of one window of a record."""

    def __init__(self, script: Script, number: int) -> None:
        self.script, self.window = script, script.windows[number]
        self.names = {device.name: d for d, device in enumerate(script.devices)}
        self.ends: dict[int, Cause] = {}  # the causes of the dooms in the trace

    def command(self, run: int, c: int) -> Command:
        return self.script.routines[self.window.runs[run - 1].routine].commands[c]

    def value(self, device: int, word: str) -> int:
        return some_value(self.script.devices[device], word)

    def answer(self, command: Command, word: str) -> Answer:
        return word if word in (FINE, DOWN, SKIPPED) else self.value(command.device, word)

    def cause(self, run: int, words: list[str]) -> Cause:
        match words:
            case ["must", c]:
                return MustDown(int(c) - 1)
            case ["refuted", c, "found", value]:
                return Refuted(int(c) - 1, self.value(self.command(run, int(c) - 1).device, value))
            case ["lost", device]:
                return Lost(self.names[device])
            case ["downatend", device]:
                return DownAtEnd(self.names[device])
            case ["revoked", device, "by", lender, "deadline", deadline, "at", moment]:
                return Revoked(int(lender), self.names[device], int(deadline), int(moment))
        raise ValueError(words)

    def entry(self, words: list[str]) -> Entry:
        match words:
            case ["arrived", run, "at", moment]:
                return Arrived(int(run), int(moment))
            case ["placed", run, "place", place, "at", moment]:
                return Placed(int(run), int(place), int(moment))
            case ["did", command, answer]:
                by, c = (int(word) for word in command.split("."))
                return Did(by, c - 1, self.answer(self.command(by, c - 1), answer))
            case ["undid", run, device, how]:
                return Undid(int(run), self.names[device], how == "drove")
            case ["fell", device]:
                return Fell(self.names[device])
            case ["rose", device]:
                return Rose(self.names[device])
            case ["doomed", run, *cause]:
                self.ends[int(run)] = self.cause(int(run), cause)
                return Doomed(int(run), self.ends[int(run)])
            case ["ended", run, end]:
                return Ended(int(run), None if end == "committed" else self.ends[int(run)])
        raise ValueError(words)

    def item(self, word: str) -> Item:
        event = re.fullmatch(r"(fail|back)\((.*)\)", word)
        if event is None:
            return Ran(int(word))
        device = self.names[event[2]]
        return Failed(device, 0) if event[1] == "fail" else Back(device, 0)

    def stand(self, device: DeviceText, word: str) -> Stand:
        value, down = word.removesuffix("!").partition("=")[2], word.endswith("!")
        return Stand(some_value(device, value), not down)


class DayReader:
    def __init__(self, script: Script, text: str) -> None:
        self.script = script
        self.lines = text.split("\n")[:-1]
        self.at = 0

    def unread(self) -> Unread:
        return Unread(
            f"line {self.at} is none of a record of this script: {self.lines[self.at - 1][:80]}"
        )

    def need(self, true: object) -> None:
        if not true:
            raise self.unread()

    def next(self) -> str:
        if self.at == len(self.lines):
            raise Cut
        self.at += 1
        return self.lines[self.at - 1]

    def peek(self) -> str:
        return self.lines[self.at] if self.at < len(self.lines) else ""

    def day(self) -> Day:
        try:
            mode = self.head()
        except Cut:
            raise Unread(
                "it is no record: one begins with the lines `safehome day` and `model ..`"
            ) from None
        day = Day(mode, lines=len(self.lines))
        try:
            for number in range(len(self.script.windows)):
                self.window(day, number)
            day.total_line = self.total(day)
        except Cut:
            return day
        except (IndexError, KeyError, TypeError, ValueError):
            raise self.unread() from None
        return day

    def head(self) -> Mode:
        first, second = self.next(), self.next()
        found = HEAD.fullmatch(second)
        if found is None or f"{first}\n{second}\n" != head_text(Mode(*found.groups())):
            raise self.unread()
        return Mode(*found.groups())

    def window(self, day: Day, number: int) -> None:
        line = self.next()
        self.need(line == f"window {number + 1} {time_text(self.script.windows[number].at)}")
        told = WindowLines(line, self.at)
        day.windows.append(told)
        reader, printer = WindowReader(self.script, number), WindowPrinter(self.script, number)
        while self.peek().startswith("# "):
            line = self.next()
            entry = reader.entry(line.split(" ")[1:])
            self.need(printer.entry(entry) == line)
            told.entries.append(entry)
            told.entry_lines.append(self.at)
        for run in range(1, len(self.script.windows[number].runs) + 1):
            self.run(told, run, reader, printer)
        self.order(told, day.mode, reader, printer)
        self.home(told, reader, printer)

    def run(
        self, told: WindowLines, run: int, reader: WindowReader, printer: WindowPrinter
    ) -> None:
        line = self.next()
        words = line.split(" ")
        if words[3] == "aborted":
            told.ends[run] = reader.cause(run, words[4:])
        else:
            told.ends[run] = None
            told.answers[run] = [
                reader.answer(command, word)
                for command, word in zip(printer.commands(run), words[4:])
            ]
        self.need(printer.run(run, told) == line)
        told.run_lines[run] = self.at

    def order(
        self, told: WindowLines, mode: Mode, reader: WindowReader, printer: WindowPrinter
    ) -> None:
        words = self.next().split(" ")
        if mode.model == "wv":
            self.need(words == ["order", "unclaimed"])
        else:
            told.order = (
                [] if words == ["order", "none"] else [reader.item(word) for word in words[1:]]
            )
            self.need(
                words == ["order", *(map(printer.item, told.order) if told.order else ["none"])]
            )
        told.order_line = self.at

    def home(self, told: WindowLines, reader: WindowReader, printer: WindowPrinter) -> None:
        words, devices = self.next().split(" "), self.script.devices
        self.need(len(words) == 1 + max(len(devices), 1))
        told.last = [reader.stand(*pair) for pair in zip(devices, words[1:])]
        self.need(
            words == ["home", *(map(printer.stand, devices, told.last) if devices else ["none"])]
        )
        told.home_line = self.at

    def total(self, day: Day) -> int:
        line = self.next()
        self.need(line + "\n" == total_text(day.windows) and self.at == len(self.lines))
        return self.at


def read_day(script: Script, text: str) -> Day:
    """The record of the script's day. Raises `Unread`."""
    return DayReader(script, text).day()


# A window is told again.


def is_whole_step(entries: list[Entry], k: int) -> bool:
    """Whether the step that made the entry made no further one behind it."""
    if k + 1 == len(entries):
        return True
    match entries[k], entries[k + 1]:
        case _, Doomed(_, MustDown() | Refuted() | Lost()):
            return False
        case Fell(device), Undid(_, other, False):
            return device != other
        case Fell(_), Did(_, _, answer):
            return answer != DOWN
    return True


@dataclass
class Wait:
    """A run waited behind the entry `since` and no more behind the entry `until`, as far as the
    history shows it."""

    run: int
    why: Why
    since: int
    until: int | None = None  # none where the record ends first


class QuickHub:
    """Answers what a hub with no grip out is asked most often as its own calls do, and looks only
    at runs that matter. It takes their place in the hub, and is told each entry by `follow`."""

    def __init__(self, hub: Hub) -> None:
        self.hub, self.history = hub, hub.history
        self.order = list[int]()  # the live runs, in the order of the line
        self.places = dict[int, int]()  # of each run in the line a number that grows along it
        self.lives = dict[int, int]()  # the same of each live run
        self.found: dict[int, list[int]] = {}  # of each device its live users
        self.first: dict[int, tuple[int, Behind] | None] = {}  # what `first_holder` found
        self.behinds: dict[tuple[int, int], Behind] = {}  # the waits that it found so far
        self.writers: dict[int, int | None] = {}  # what `effective_writer` found
        self.users: dict[int, list[int]] = {}  # of each device the runs that have a command there
        for run in hub.runs:
            for device in hub.runs[run].footprint:
                self.users.setdefault(device, []).append(run)
        self.find_places()
        setattr(self.history, "live_before", self.live_before)
        for name in ("effective_writer", "wait_in_line"):
            setattr(hub, name, getattr(self, name))
        if self.history.mode.scheduler == "fcfs":  # nobody stands before who came later
            setattr(hub, "overdue", lambda run, device, moment: None)

    def follow(self, entry: Entry) -> None:
        """The entry has been added to the history."""
        self.first.clear()
        self.writers.clear()
        kind = type(entry)
        if kind is Placed:
            self.put(entry.run)  # type: ignore[union-attr]
        elif kind is Ended:
            self.leave(entry.run)  # type: ignore[union-attr]

    def put(self, run: int) -> None:
        """The run has come into the line: behind all others, or these are found anew."""
        if self.history.line[-1] != Ran(run):
            self.find_places()
            return
        self.places[run] = self.lives[run] = max(self.places.values(), default=-1) + 1
        self.order.append(run)
        for device in self.hub.runs[run].footprint:
            if device in self.found:
                self.found[device].append(run)

    def leave(self, run: int) -> None:
        """The run has ended; where it was aborted, it is in the line no more."""
        if run not in self.lives:
            return
        self.order.remove(run)
        del self.lives[run]
        if self.history.ends[run] is not None:
            del self.places[run]
        for device in self.hub.runs[run].footprint:
            if device in self.found:
                self.found[device].remove(run)

    def find_places(self) -> None:
        """Finds where the runs stand in the line."""
        history = self.history
        self.places = {
            item.run: place for place, item in enumerate(history.line) if isinstance(item, Ran)
        }
        self.order = [run for run in self.places if run not in history.ends]
        self.lives = {run: self.places[run] for run in self.order}
        self.found = {}

    def live_before(self, run: int) -> list[int]:
        """The live runs before a run in the line."""
        if run not in self.lives:
            return History.live_before(self.history, run)
        return self.order[: self.order.index(run)]

    def live_users(self, device: int) -> list[int]:
        """The live runs that have a command on the device, in the order of the line."""
        found = self.found.get(device)
        if found is None:
            users = [run for run in self.users.get(device, ()) if run in self.lives]
            found = self.found[device] = sorted(users, key=self.lives.__getitem__)
        return found

    def first_holder(self, device: int) -> tuple[int, Behind] | None:
        """The place of the first run in the line that has the device, and the wait for it."""
        if device in self.first:
            return self.first[device]
        self.first[device] = None
        for run in self.live_users(device):
            if self.hub.holds(run, device):
                why = self.behinds.setdefault((device, run), Behind(device, run))
                self.first[device] = self.lives[run], why
                break
        return self.first[device]

    def wait_in_line(self, run: int, command: Command, sees_down: bool) -> Why | None:
        """For which run before it in the line a run waits at this command: one that has the device
        names it."""
        device, place = command.device, self.lives[run]
        first = self.first_holder(device)
        if first is not None and first[0] < place:
            return first[1]
        if command.reads and not sees_down and device not in self.history.wrote[run]:
            writer = self.effective_writer(device)
            if writer is not None and self.lives.get(writer, place) < place:
                return Dirty(device, writer)
        strict: Why | None = self.hub.strict_wait(run)
        return strict

    def effective_writer(self, device: int, without: int | None = None) -> int | None:
        """The last run along the line with a write there that is not undone."""
        if without is None and device in self.writers:
            return self.writers[device]
        wrote, undone = self.history.wrote, self.history.undone
        last, found = -1, None
        for run in self.users.get(device, ()):
            if device in wrote[run] and device not in undone[run] and run != without:
                place = self.places.get(run, -1)
                if place > last:
                    last, found = place, run
        if without is None:
            self.writers[device] = found
        return found


class Retelling:
    """The hub of a window as the trace tells it, entry after entry. What a grip that is out keeps
    waiting is not told there."""

    def __init__(
        self, script: Script, number: int, mode: Mode, stands: list[Stand], told: WindowLines
    ) -> None:
        home = Home(script)
        home.stands = stands
        self.hub = home.open_window(script.windows[number], mode)
        self.told, self.history, self.moment = told, self.hub.history, 0
        self.quick = QuickHub(self.hub)
        self.printer = WindowPrinter(script, number)
        self.waits, self.waiting = list[Wait](), dict[int, Wait]()
        self.is_fcfs = mode.scheduler == "fcfs"
        self.at_device: dict[int, set[int]] = {
            d: set() for d in self.quick.users
        }  # by next commands
        self.unplaced: set[int] = set()  # that have arrived
        self.touched = set[int](), set[int]()  # runs and devices, since waits were looked at

    def device_of(self, entry: Entry) -> int | None:
        if isinstance(entry, Did):
            device: int = self.hub.runs[entry.run].commands[entry.command].device
            return device
        return getattr(entry, "device", None)

    def steps(self) -> Iterator[tuple[int, Entry]]:
        """Each entry with its number, when it has been added."""
        for k, entry in enumerate(self.told.entries):
            try:
                before = self.moment
                self.history.add(entry)
                self.quick.follow(entry)
                moment = getattr(entry.cause if isinstance(entry, Doomed) else entry, "moment", 0)
                self.moment = max(before, moment)
                self.touch(entry)
                if is_whole_step(self.told.entries, k):
                    self.look(k, self.moment != before)
            except (IndexError, KeyError, ValueError):
                line = self.told.entry_lines[k]
                raise Unread(f"line {line} does not go on from the ones before it") from None
            yield k, entry

    def touch(self, entry: Entry) -> None:
        """Notes the runs and the devices to whose waits the entry may mean something."""
        runs, devices = self.touched
        device = self.device_of(entry)
        if device is not None:
            devices.add(device)
        if isinstance(entry, Did):
            runs.add(entry.run)
            self.go_on(entry.run, entry.command)
        elif isinstance(entry, Arrived):
            self.unplaced.add(entry.run)
            runs.add(entry.run)
        elif isinstance(entry, Placed | Doomed | Ended):
            if isinstance(entry, Placed):
                self.unplaced.discard(entry.run)
                self.go_on(entry.run, -1)
            runs.add(entry.run)
            devices.update(self.hub.runs[entry.run].footprint)
            if self.hub.is_strict:
                runs.update(self.history.placed)
        elif isinstance(entry, Undid):
            runs.add(entry.run)
        if isinstance(entry, Ended) or self.history.mode.scheduler == "jit":
            runs.update(self.unplaced)

    def go_on(self, run: int, answered: int) -> None:
        """The run is at the command behind the one that was answered."""
        commands = self.hub.runs[run].commands
        if answered >= 0:
            self.at_device[commands[answered].device].discard(run)
        if answered + 1 < len(commands):
            self.at_device[commands[answered + 1].device].add(run)

    def look(self, k: int, has_moved: bool) -> None:
        """Notes which waits begin and end behind the entry."""
        runs, devices = self.touched
        self.touched = set[int](), set[int]()
        if has_moved and not self.is_fcfs:
            runs = set(self.history.arrived)
        for device in devices:
            runs |= self.unsure_at(device)
        for run in sorted(runs):
            self.note(k, run)

    def unsure_at(self, device: int) -> set[int]:
        """The runs at the device whose wait may be another one now. First come first served a run
        waits behind the first one that has the device for as long as that is the first."""
        runs = self.at_device.get(device, set())
        first = self.quick.first_holder(device) if runs and self.is_fcfs else None
        if first is None:
            return runs
        why, waiting = first[1], self.waiting
        return {run for run in runs if run not in waiting or waiting[run].why is not why}

    def is_placed_next(self, run: int) -> bool:
        """Whether the run's next step is sure to place it: but just in time nobody is denied."""
        history = self.history
        return (
            run not in history.placed
            and self.hub.runs[run].follows is None
            and history.mode.scheduler != "jit"
        )

    def wait_of(self, run: int) -> Why | None:
        """Why the run waits, or none, of a run that has arrived."""
        history = self.history
        if run in history.ends or run in history.dooms or self.is_placed_next(run):
            return None
        if run in history.placed:
            return self.wait_placed(run)
        wait = self.hub.decide(run, self.moment)
        return wait if isinstance(wait, WAITS) else None

    def wait_placed(self, run: int) -> Why | None:
        """Why a run waits that has its place and is not doomed: as `Hub.decide_command` has it,
        where no grip is out."""
        hub, history = self.hub, self.history
        commands, done = hub.runs[run].commands, len(history.answers[run])
        if done == len(commands):
            return None  # it commits, or is doomed
        command: Command = commands[done]
        if not command.is_done(history.registers[run]):
            strict: Why | None = hub.strict_wait(run)
            return strict
        if hub.is_weak:
            return None
        if not self.is_fcfs and hub.overdue(run, command.device, self.moment) is not None:
            return None
        sees_down = not history.sees_up[run].get(command.device, True)
        return self.quick.wait_in_line(run, command, sees_down)

    def note(self, k: int, run: int) -> None:
        wait, before = self.wait_of(run), self.waiting.get(run)
        if before is not None and before.why is not wait and before.why != wait:
            self.waiting.pop(run).until = k
            before = None
        if wait is not None and before is None:
            self.waiting[run] = Wait(run, wait, k)
            self.waits.append(self.waiting[run])


def stands_before(script: Script, day: Day, number: int) -> list[Stand]:
    """Where the devices stand as a window opens."""
    return (
        day.windows[number - 1].last or []
        if number
        else [Stand(device.start, True) for device in script.devices]
    )
