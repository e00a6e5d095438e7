"""What is legal in a script and surprises who has not met it: each hint with its place.

A hint is no mistake; the program plays the day. Each kind is told once, at the first place where it
stands, with the others.
"""
import re
from collections.abc import Iterator
from typing import NamedTuple

from lazbendix.reference.hub import PATIENCE
from lazbendix.reference.json_text import Node
from lazbendix.reference.script import RoutineText, Script, WindowText
from lazbendix.reference.serial import Command


class Hint(NamedTuple):
    kind: str
    at: int
    end: int
    path: str
    says: str
    more: tuple[int, ...] = ()  # where else it holds: the first bytes


class Hints:
    """The hints for a script that is read, with the places of its text."""

    def __init__(self, top: Node, script: Script, scheduler: str = "fcfs") -> None:
        self.top, self.script, self.hints = top, script, list[Hint]()
        self.has_leases = scheduler != "fcfs"
        self.names = [device.name for device in script.devices]
        self.failing = {d for d, device in enumerate(script.devices) if device.downs}
        self.slowest = [
            max(routine.commands, key=lambda command: command.takes) for routine in script.routines
        ]
        self.leases = list(map(leases_of, script.routines))
        self.found: dict[tuple[int, int], int | None] = {}  # what `outlasted` answered

    def all(self) -> list[Hint]:
        self.hints += doubled_members(self.top, "the day")
        for look in (self.empty, self.unused, self.routines, self.failures, self.picks, self.times):
            look()
        if self.has_leases:
            self.clocks()
        return once_each(self.hints)

    def tell(self, kind: str, node: Node, path: str, says: str) -> None:
        self.hints.append(Hint(kind, node.at, node.end, path, says))

    def node(self, *steps: str | int) -> Node:
        node = self.top
        for step in steps:
            node = node.value[step]
        return node

    # What is there and comes to nothing.

    def empty(self) -> None:
        for kind in ("devices", "routines", "windows"):
            if not self.node(kind).value:
                self.tell(
                    "empty",
                    self.node(kind),
                    f'the day, "{kind}"',
                    f"there are no {kind}: the day is played, and says little",
                )
        for k, window in enumerate(self.script.windows):
            if not window.runs:
                self.tell(
                    "no runs",
                    self.node("windows", k, "runs"),
                    f"window {k + 1}",
                    "nothing is run in it",
                )

    def unused(self) -> None:
        run = {run.routine for window in self.script.windows for run in window.runs}
        used = {command.device for r in run for command in self.script.routines[r].commands}
        for r, routine in enumerate(self.script.routines):
            if r not in run and self.script.windows:
                self.tell(
                    "unused routine",
                    self.node("routines", r, "name"),
                    f'routine "{routine.name}"',
                    "no window runs it",
                )
        for d, name in enumerate(self.names):
            if d not in used and self.script.windows:
                self.tell(
                    "unused device",
                    self.node("devices", d, "name"),
                    f'device "{name}"',
                    "no run uses it",
                )

    # Routines.

    def routines(self) -> None:
        for r, routine in enumerate(self.script.routines):
            loaded: int | None = None
            written: list[str] = []
            for c, command in enumerate(routine.commands):
                node, name = self.node("routines", r, "commands", c), self.names[command.device]
                path = f'routine "{routine.name}", command {c + 1} ({name})'
                if command.job == "check" and command.must and written:
                    self.tell(
                        "check behind writes",
                        node,
                        path,
                        f"where it finds another value, what the run wrote on "
                        f"{' and '.join(written)} is taken back: a check that decides whether to "
                        "begin stands first",
                    )
                if command.job == "check" and not command.must:
                    self.tell(
                        "check that decides nothing",
                        node,
                        path,
                        "a check that is not must is recorded, and the run goes on whatever it "
                        "finds",
                    )
                if command.job == "store":
                    self.stored(node, path, command, loaded)
                if command.when:
                    self.guarded(node, path, command, loaded)
                if command.job == "load":
                    loaded = command.device
                if command.writes and command.must and command.device in self.failing:
                    self.tell(
                        "must on a device that fails",
                        node,
                        path,
                        f"{name} has calls that it does not answer: "
                        'a run that meets one here is taken back whole; "must": false lets it go '
                        "on",
                    )
                if command.writes and name not in written:
                    written.append(name)

    def stored(self, node: Node, path: str, command: Command, loaded: int | None) -> None:
        to = self.script.devices[command.device]
        if loaded is None:
            low = to.word(to.kind.nearest(0))
            self.tell(
                "store before a load",
                node,
                path,
                "nothing is loaded before it, so it drives to the value nearest to 0, which is "
                f"{low}",
            )
            return
        source = self.script.devices[loaded]
        if source.states != to.states:
            self.tell(
                "store from another kind",
                node,
                path,
                f"what was loaded from {source.name} counts as a number here, "
                "a state by its place in the list, from 0; the value nearest to it is driven",
            )

    def guarded(self, node: Node, path: str, command: Command, loaded: int | None) -> None:
        if loaded is None:
            self.tell(
                "guard before a load",
                node,
                path,
                "nothing is loaded before it, so its guard asks of 0, and it is "
                + ("done" if command.is_done(0) else "skipped")
                + " in each run",
            )
        elif self.script.devices[loaded].states:
            self.tell(
                "guard over a state",
                node,
                path,
                f"what was loaded from {self.names[loaded]} counts as a number here: "
                "a state by its place in the list, from 0",
            )

    # Devices that fail.

    def failures(self) -> None:
        probing = [k for k, window in enumerate(self.script.windows) if window.probes]
        for d in sorted(self.failing):
            node, path = self.node("devices", d, "down"), f'device "{self.names[d]}", "down"'
            if not probing:
                self.tell(
                    "no probes",
                    node,
                    path,
                    'no window has "probes": once it is counted down it stays so to the end of '
                    "the day, and each later must command on it aborts its run",
                )
            elif probing[-1] < len(self.script.windows) - 1:
                self.tell(
                    "no probes at the end",
                    node,
                    path,
                    f"behind window {probing[-1] + 1} no window probes: where it is counted down "
                    "then, it stays so",
                )
            if self.probes_take_calls(d):
                first = min(begin for begin, _ in self.script.devices[d].downs)
                self.tell(
                    "probes are calls",
                    node,
                    path,
                    "calls are counted over the day, those of probes with those of commands: "
                    f"without turns the seed decides which of them meets call {first} "
                    "(docs/HOW-TO-WRITE.md)",
                )

    def probes_take_calls(self, device: int) -> bool:
        """Whether a probe may be called before the first call that fails, in a window whose picks
        are drawn."""
        drawn = any(window.probes and not window.turns for window in self.script.windows)
        return drawn and min(begin for begin, _ in self.script.devices[device].downs) > 1

    # One clock, and leases.

    def clocks(self) -> None:
        for r, routine in enumerate(self.script.routines):
            for c, command in enumerate(routine.commands):
                if command.takes > command.ms:
                    self.tell(
                        "takes more than its estimate",
                        self.node("routines", r, "commands", c, "takes"),
                        f'routine "{routine.name}", command {c + 1} '
                        f"({self.names[command.device]}), "
                        '"takes"',
                        f"it takes {command.takes} ms and is estimated at {command.ms}: just in "
                        "time and by the timeline "
                        "leases end by the estimate, and runs may be revoked that did nothing "
                        "wrong",
                    )
        for k, window in enumerate(self.script.windows):
            self.long_command(k, window)

    def long_command(self, k: int, window: WindowText) -> None:
        """A command that takes longer than another run's whole lease on a device that both use."""
        numbers = [run.routine for run in window.runs]
        for r, number in enumerate(numbers):
            for other, borrower in enumerate(numbers):
                d = None if are_linked(window, r, other) else self.outlasted(number, borrower)
                if d is not None:
                    self.tell_long_command(k, r, other, d)
                    return

    def outlasted(self, routine: int, borrower: int) -> int | None:
        """A device of both routines on which the second one's lease is shorter than a command of
        the first; or none."""
        key = routine, borrower
        if key not in self.found:
            slow, leases = self.slowest[routine].takes, self.leases[borrower]
            short = [d for d in self.leases[routine] if slow > leases.get(d, slow)]
            self.found[key] = min(short, default=None)
        return self.found[key]

    def tell_long_command(self, k: int, r: int, other: int, d: int) -> None:
        long, short = (self.script.windows[k].runs[run].routine for run in (r, other))
        slow, lease = self.slowest[long], self.leases[short][d]
        self.tell(
            "long command",
            self.node("windows", k, "runs", r),
            f"window {k + 1}, run {r + 1} ({self.routine(long)})",
            f"its command on {self.names[slow.device]} takes {slow.takes} ms. A replay has one "
            "clock, which "
            f"each command of any run moves for all: just in time, run {other + 1} "
            f"({self.routine(short)}) may have "
            f"{self.names[d]} on lease for {lease} ms, and be revoked meanwhile"
            + (
                f"; a run that is denied a device waits {PATIENCE} ms at most"
                if slow.takes >= PATIENCE
                else ""
            ),
        )

    def routine(self, number: int) -> str:
        return str(self.script.routines[number].name)

    # Who steps, and when.

    def picks(self) -> None:
        for k, window in enumerate(self.script.windows):
            node = self.node("windows", k)
            if len(window.runs) > 1 and not window.turns:
                self.tell(
                    "no turns",
                    self.node("windows", k, "runs"),
                    f"window {k + 1}",
                    "it has no turns, so a replay draws who "
                    f"steps, by the seed {window.seed}: another seed may end otherwise, and each "
                    "end is a legal one; "
                    '"turns": [1, 1, ..] lets run 1 go first (docs/HOW-TO-WRITE.md)',
                )
            for r, run in enumerate(window.runs):
                if run.follows:
                    self.tell(
                        "follows",
                        node.value["runs"].value[r].value["follows"],
                        f'window {k + 1}, run {r + 1}, "follows"',
                        f"it waits for the end of run {run.follows}, committed or taken back; it "
                        "is "
                        "run in both cases",
                    )

    def times(self) -> None:
        for k in range(len(self.script.windows)):
            node = self.node("windows", k, "at")
            if re.search(r"[+\[]|[.,]\d|:\d\d-\d", node.value[11:]):
                self.tell(
                    "not heeded",
                    node,
                    f'window {k + 1}, "at"',
                    "parts of a second, an offset and a zone are read and not heeded: times are "
                    "ordered as they are written",
                )


def leases_of(routine: RoutineText) -> dict[int, int]:
    """How long the routine may have each of its devices on lease, in ms."""
    leases, estimate = {}, 0
    for command in routine.commands:
        estimate += command.ms
        leases[command.device] = estimate - (-estimate // 10)
    return leases


def doubled_members(node: Node, path: str) -> Iterator[Hint]:
    """Members that are written twice."""
    if isinstance(node.value, list):
        for j, part in enumerate(node.value, 1):
            yield from doubled_members(part, f"{path}, entry {j}")
    elif isinstance(node.value, dict):
        for name, at in node.doubles:
            yield Hint(
                "written twice",
                at,
                at + 1,
                f'{path}, "{name}"',
                "it is written again in the same braces: the last one counts",
            )
        for name, part in node.value.items():
            yield from doubled_members(part, f'{path}, "{name}"')


def are_linked(window: WindowText, one: int, other: int) -> bool:
    """Whether these runs, from 0, are one, or one of them waits for the end of the other before it
    is placed."""
    later, earlier = max(one, other), min(one, other)
    while later > earlier:
        follows = window.runs[later].follows
        if not follows:
            return False
        later = follows - 1
    return later == earlier


def once_each(hints: list[Hint]) -> list[Hint]:
    """The first hint of each kind, with the places of the others, in the order of their places."""
    kinds: dict[str, list[Hint]] = {}
    for hint in sorted(hints, key=lambda hint: hint.at):
        kinds.setdefault(hint.kind, []).append(hint)
    return [first._replace(more=tuple(hint.at for hint in more)) for first, *more in kinds.values()]
