"""When the entries of a window were made, as far as its record tells it."""
from lazbendix.records import Wait, WindowLines
from lazbendix.reference.history import Did, Doomed, Entry, Fell
from lazbendix.reference.script import Script
from lazbendix.reference.serial import DOWN, SKIPPED


def recorded_moment(entry: Entry) -> int | None:
    """The moment that the entry's line has, in ms, or none."""
    told: int | None = getattr(entry.cause if isinstance(entry, Doomed) else entry, "moment", None)
    return told


def takes_of(script: Script, number: int, told: WindowLines, k: int) -> int:
    """How long the command took that the entry with the number k answers, by its script, in ms; 0
    for any other entry. A command that finds its device counted down calls none; one that is first
    told so does, and stands behind the failure.
    """
    entry = told.entries[k]
    if not isinstance(entry, Did) or entry.answer == SKIPPED:
        return 0
    routine = script.windows[number].runs[entry.run - 1].routine
    command = script.routines[routine].commands[entry.command]
    failed = k > 0 and told.entries[k - 1] == Fell(command.device)
    return int(command.takes) if entry.answer != DOWN or failed else 0


def replayed_moments(script: Script, number: int, told: WindowLines) -> list[int]:
    """The moments by a replay's one clock, which each command that calls a device moves."""
    moments, clock = list[int](), 0
    for k, entry in enumerate(told.entries):
        clock = max(clock + takes_of(script, number, told, k), recorded_moment(entry) or 0)
        moments.append(clock)
    return moments


def recorded_moments(told: WindowLines) -> list[int]:
    """The moments that the record has; where an entry has none, that of the one before."""
    moments, clock = list[int](), 0
    for entry in told.entries:
        clock = max(clock, recorded_moment(entry) or 0)
        moments.append(clock)
    return moments


def moments_of(script: Script, number: int, told: WindowLines) -> list[int]:
    """The moment of each entry, in ms. Where the record is one of a replay, by its clock; else as
    the record has it, from its first moment on."""
    replayed = replayed_moments(script, number, told)
    known = [(recorded_moment(entry), moment) for entry, moment in zip(told.entries, replayed)]
    if all(recorded in (None, moment) for recorded, moment in known):
        return replayed
    moments = recorded_moments(told)
    first = next((moment for moment in moments if moment), 0)
    return [max(moment - first, 0) for moment in moments]


class Overlapping:
    """The times of a window's entries if all runs came at once, and each took only its commands'
    time and its waits: a run goes on when its own last command and what it waited for are done, and
    a device makes one call at a time. What is undone takes no time. In ms."""

    def __init__(self, script: Script, number: int, told: WindowLines, waits: list[Wait]) -> None:
        self.waited: dict[int, int] = {}  # of each run that waited
        self.longest = self.length = 0
        self.runs: dict[int, int] = {}  # when each is done so far
        self.devices: dict[int, int] = {}
        self.ends: list[int] = []
        of_run: dict[int, list[Wait]] = {}
        last = len(told.entries)
        for wait in sorted(waits, key=lambda it: it.until if it.until is not None else last)[::-1]:
            of_run.setdefault(wait.run, []).append(wait)
        routines = [script.routines[run.routine] for run in script.windows[number].runs]
        for k, entry in enumerate(told.entries):
            run = getattr(entry, "run", None)
            mine = of_run.get(run, []) if run else []
            while mine and mine[-1].until is not None and mine[-1].until < k:
                self.pass_wait(mine.pop())
            done = self.runs.get(run, 0) if run else 0
            if run and isinstance(entry, Did):
                device = routines[run - 1].commands[entry.command].device
                takes = takes_of(script, number, told, k)
                if takes:
                    done = max(done, self.devices.get(device, 0)) + takes
                    self.devices[device] = done
            if run:
                self.runs[run] = done
            self.ends.append(done)
            self.length = max(self.length, done)

    def pass_wait(self, wait: Wait) -> None:
        """The run goes on behind what it waited for."""
        if wait.until is None:
            return
        done, until = self.runs.get(wait.run, 0), self.ends[wait.until]
        ms = max(until - done, 0)
        self.waited[wait.run] = self.waited.get(wait.run, 0) + ms
        self.longest = max(self.longest, ms)
        self.runs[wait.run] = max(done, until)
