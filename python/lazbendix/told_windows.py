"""The history of a window as pictures and pages are told it: its entries, and what holds between
them.

All is told in plain data, as JSON has it. A step is a number: 0 is before the first entry, N behind
entry N. A stretch holds from its step `from` on, up to its step `to`; where it lasts to the end,
that is one more than there are entries. Runs count from 1, devices and commands from 0, values are
words.
"""
import operator
from collections.abc import Iterable
from typing import Any, Generic, TypeVar

from lazbendix.holdings import holders, leases_on
from lazbendix.moments import moments_of
from lazbendix.records import Answer, Day, Item, Retelling, Wait, Why, is_whole_step, stands_before
from lazbendix.reference.history import (
    Arrived,
    Cause,
    Did,
    Doomed,
    DownAtEnd,
    Ended,
    Entry,
    Fell,
    Lost,
    MustDown,
    Placed,
    Refuted,
    Revoked,
    Rose,
    Undid,
)
from lazbendix.reference.record import WindowPrinter
from lazbendix.reference.script import Script
from lazbendix.reference.serial import DOWN, SKIPPED, Command

Facts = dict[str, Any]  # as JSON has them
Key = TypeVar("Key")
Value = TypeVar("Value")


class Stretches(Generic[Key, Value]):
    """What holds for a while: for each key a value, from the step that first has it to the one that
    first has it no more."""

    def __init__(self) -> None:
        self.now: dict[Key, tuple[int, Value]] = {}
        self.told: list[tuple[Key, int, int, Value]] = []

    def tell(self, key: Key, step: int, value: Value | None) -> None:
        since, before = self.now.get(key) or (step, None)
        if before == value:
            return
        if before is not None and since < step:
            self.told.append((key, since, step, before))
        if value is None:
            self.now.pop(key, None)
        else:
            self.now[key] = step, value

    def close(self, step: int) -> list[tuple[Key, int, int, Value]]:
        """All of them, where the last one lasts to the end."""
        for key in list(self.now):
            self.tell(key, step, None)
        return sorted(self.told, key=lambda stretch: stretch[1])


class HistoryTeller:
    """Goes along the history of a window, and tells each entry, and what holds between them."""

    def __init__(self, script: Script, number: int, day: Day) -> None:
        self.script, self.number, self.window = script, number, day.windows[number]
        self.again = Retelling(
            script, number, day.mode, stands_before(script, day, number), self.window
        )
        self.hub, self.history = self.again.hub, self.again.history
        self.printer = WindowPrinter(script, number)
        self.entries: list[Facts] = []
        self.line: list[Item] = []
        self.steps_of: dict[int, list[int]] = {run: [] for run in self.hub.runs}
        self.waits_of: dict[int, list[Wait]] = {}
        self.have: dict[int, set[int]] = {}  # of each device that was met who has it
        self.has_leases = day.mode.scheduler != "fcfs"
        self.met: set[int] = set()  # devices, since holdings were told
        self.downs, self.values = Stretches[int, bool](), Stretches[int, str]()
        self.holds = Stretches[tuple[int, int], bool]()  # of a device and a run, as the leases
        self.leases = Stretches[tuple[int, int], tuple[tuple[int, ...], int]]()
        self.tell_stands(0, range(len(script.devices)))

    def told(self) -> Facts:
        for k, entry in self.again.steps():
            self.entries.append(
                {"line": self.printer.entry(entry), **self.facts(entry), **self.turn()}
            )
            if not isinstance(entry, Fell | Rose):
                self.steps_of[entry.run].append(k + 1)
            devices = self.devices_of(entry)
            if not isinstance(entry, Placed):
                self.tell_stands(k + 1, devices)
            self.met.update(devices)
            if is_whole_step(self.window.entries, k):
                self.tell_holdings(k + 1)
        last = len(self.entries) + 1
        for wait in self.again.waits:
            self.waits_of.setdefault(wait.run, []).append(wait)
        return {
            "entries": self.entries,
            "moments": moments_of(self.script, self.number, self.window),
            "states": [state for run in self.hub.runs for state in self.states(run, last)],
            "holds": [
                {"device": d, "run": run, "from": since, "to": end}
                for (d, run), since, end, _ in self.holds.close(last)
            ],
            "downs": [
                {"device": d, "from": since, "to": end}
                for d, since, end, _ in self.downs.close(last)
            ],
            "leases": [
                {
                    "device": d,
                    "borrower": run,
                    "from": since,
                    "to": end,
                    "lenders": lenders,
                    "deadline": deadline,
                }
                for (d, run), since, end, (lenders, deadline) in self.leases.close(last)
            ],
            "values": [
                {"device": d, "from": since, "to": end, "value": word}
                for d, since, end, word in self.values.close(last)
            ],
        }

    def states(self, run: int, last: int) -> list[Facts]:
        """What the run is at, stretch after stretch, from its arrival to its end: it works, waits
        or is doomed."""
        steps = {self.entries[step - 1]["kind"]: step for step in self.steps_of[run]}
        end = steps.get("ended", last)
        doom = steps.get("doomed", end)
        states, since = list[tuple[int, int, Facts]](), steps.get("arrived", end)
        for wait in self.waits_of.get(run, ()):
            until = last if wait.until is None else wait.until + 1
            states += [
                (since, wait.since + 1, {"state": "works"}),
                (wait.since + 1, until, {"state": "waits", **wait_facts(wait.why)}),
            ]
            since = until
        states += [(since, doom, {"state": "works"}), (max(since, doom), end, {"state": "doomed"})]
        return [
            {"run": run, "from": since, "to": end, **state}
            for since, end, state in states
            if since < end
        ]

    # The entry.

    def turn(self) -> Facts:
        """Where the entry puts something into the line, or takes it out; `first` has the places of
        the items that a placing brings to the front, in their order, where it rearranges the line.
        """
        if len(self.line) == len(self.history.line):
            return {}
        before, self.line = self.line, list(self.history.line)
        if len(self.line) < len(before):
            stays = set(map(id, self.line))
            return {"outOf": next(at for at, item in enumerate(before) if id(item) not in stays)}
        same = next(
            (place for place, pair in enumerate(zip(before, self.line)) if pair[0] is not pair[1]),
            len(before),
        )
        if all(map(operator.is_, self.line[same + 1 :], before[same:])):
            return {"into": same}
        into = next(place for place, item in enumerate(self.line) if item not in before)
        return {"into": into, "first": [before.index(item) for item in self.line[:into]]}

    def facts(self, entry: Entry) -> Facts:
        match entry:
            case Arrived(run, moment):
                return {"kind": "arrived", "run": run, "moment": moment}
            case Placed(run, _, moment):
                return {"kind": "placed", "run": run, "moment": moment}
            case Did(run, c, answer):
                return {
                    "kind": "did",
                    "run": run,
                    "command": c,
                    **self.answer_facts(run, c, answer),
                }
            case Undid(run, device, drove):
                return {
                    "kind": "undid",
                    "run": run,
                    "device": device,
                    "drove": drove,
                    "value": self.stand(device),
                }
            case Fell(device):
                return {"kind": "fell", "device": device}
            case Rose(device):
                return {"kind": "rose", "device": device, "value": self.stand(device)}
            case Doomed(run, cause):
                at = {"moment": cause.moment} if isinstance(cause, Revoked) else {}
                facts = cause_facts(self.script, self.hub.runs[run].commands, cause)
                return {"kind": "doomed", "run": run, **at, "cause": facts}
            case Ended(run, cause):
                return {"kind": "ended", "run": run, "committed": cause is None}

    def answer_facts(self, run: int, c: int, answer: Answer) -> Facts:
        command = self.hub.runs[run].commands[c]
        if answer == DOWN:
            return {"device": command.device, "down": True}
        if answer == SKIPPED:
            return {"device": command.device, "skipped": True}
        wrote = self.history.wrote[run]
        value = answer if isinstance(answer, int) else wrote[command.device]
        return {"device": command.device, "value": self.script.devices[command.device].word(value)}

    def stand(self, device: int) -> str:
        return self.script.devices[device].word(self.hub.standing_value(device))

    # What holds behind it.

    def devices_of(self, entry: Entry) -> list[int]:
        """The devices of which something else may be true behind the entry."""
        match entry:
            case Arrived():
                return []
            case Placed(run, _, _) | Doomed(run, _) | Ended(run, _):
                return self.hub.runs[run].footprint
        return [self.entries[-1]["device"]]

    def tell_stands(self, step: int, devices: Iterable[int]) -> None:
        """Tells where the devices should stand behind the step, and which are down."""
        for device in devices:
            self.downs.tell(device, step, not self.history.up[device] or None)
            self.values.tell(device, step, self.stand(device))

    def tell_holdings(self, step: int) -> None:
        """Tells who has the devices that were met, and who has them on lease."""
        for device in sorted(self.met):
            have = holders(self.hub, self.again.quick, device)
            leases = {
                lease.borrower: (lease.lenders, lease.deadline)
                for lease in leases_on(self.hub, self.again.quick, device)
            }
            before, self.have[device] = self.have.get(device, set()), set(have)
            for run in sorted(before ^ self.have[device]):
                self.holds.tell((device, run), step, run in self.have[device] or None)
            if self.has_leases:
                for run in self.again.quick.users.get(device, ()):
                    self.leases.tell((device, run), step, leases.get(run))
        self.met = set()


def wait_facts(why: Why) -> Facts:
    """A wait as the page is told it: its kind, and the other run and the device, where it names
    them."""
    named = {"other": getattr(why, "run", None), "device": getattr(why, "device", None)}
    return {
        "kind": type(why).__name__.lower(),
        **{name: number for name, number in named.items() if number is not None},
    }


def cause_facts(script: Script, commands: list[Command], cause: Cause) -> Facts:
    """A cause as the page is told it."""
    match cause:
        case MustDown(c):
            return {"kind": "must", "command": c}
        case Refuted(c, found):
            return {
                "kind": "refuted",
                "command": c,
                "found": script.devices[commands[c].device].word(found),
            }
        case Lost(device):
            return {"kind": "lost", "device": device}
        case Revoked(lender, device, deadline, moment):
            return {
                "kind": "revoked",
                "run": lender,
                "device": device,
                "deadline": deadline,
                "moment": moment,
            }
        case DownAtEnd(device):
            return {"kind": "downatend", "device": device}


def told_history(script: Script, day: Day, number: int) -> Facts:
    """The history of a window of a day that was read, the first as number 0."""
    return HistoryTeller(script, number, day).told()
