"""The walk through a script that does not stop at its first mistake: each with the program's words
for it, its place, and more.

The steps stand in the order of `reference.script`, whose members, types, limits and names they use;
so the first mistake is the refusal. What would follow from an earlier mistake alone, as the states
of a device that has none, is not told again.
"""
import difflib
import re
import unicodedata
from collections.abc import Callable, Container, Iterable, Mapping
from typing import Any, NamedTuple

from lazbendix.reference import script
from lazbendix.reference.json_text import Node, NotJson, read_places
from lazbendix.reference.record import time_text
from lazbendix.reference.script import LIMITS, NAME, VERSIONS
from lazbendix.reference.times import read_time

Span = tuple[int, int]  # a first byte, and the one behind the last
Time = tuple[int, ...]  # year, month, day, hour, minute, second
Test = Callable[..., bool]  # of a value's type
Types = Mapping[str, Test]  # of members, by their names
Members = dict[str, Node]

JOBS = ("set", "check", "load", "store")


def is_object(value: object) -> bool:
    return isinstance(value, dict)


TYPES: dict[Test, str] = {
    script.is_text: "a text in double quotes",
    script.is_list: "a list",
    script.is_truth: "true or false, without quotes",
    script.is_whole: "a whole number from 0 to 4294967295",
    script.is_long: "a whole number from 0 to 2^64 - 1",
    script.is_state: "a state's name, or a whole number from 0 to 4294967295",
    is_object: 'an object, {"is": N} or {"below": N}',
}
GUARDED = script.GUARDED[0], {
    **script.GUARDED[1],
    "when": is_object,
}  # what stands in it is looked at behind
GUARD: tuple[Types, Types] = {}, {"is": script.is_whole, "below": script.is_whole}
NOTES = (
    "$schema",
    "$comment",
    "title",
    "note",
    "notes",
    "comment",
    "comments",
    "description",
    "alias",
    "_comment",
    "//",
)
TEXT = re.compile(rb'"(?:[^"\\]|\\.)*"', re.DOTALL)
MEANT = {  # names of members that are written for others
    "if": "when",
    "condition": "when",
    "value": "to",
    "state": "to",
    "target": "to",
    "action": "do",
    "job": "do",
    "device": "on",
    "entity": "on",
    "entity_id": "on",
    "duration": "takes",
    "estimate": "ms",
    "after": "follows",
    "waits": "follows",
    "time": "at",
    "initial": "start",
    "min": "low",
    "max": "high",
    "id": "name",
    "steps": "commands",
    "actions": "commands",
    "values": "states",
    "version": "safehome",
    "required": "must",
    "random": "seed",
    "equals": "is",
    "less": "below",
    "under": "below",
}
NO_GUARDS = (
    "above",
    "over",
    "greater",
    "more",
    "not",
    "least",
    "most",
)  # which a guard does not ask
EXAMPLE = "2021-04-26T18:30:00"
SHOWN = 40  # letters of a value that is quoted
NEARNESS = 0.7  # of a name that may be meant, by difflib


class Mistake(NamedTuple):
    refusal: str  # in the program's words
    at: int  # the byte
    end: int
    path: str
    says: str


class Kept(NamedTuple):
    """What is known of a device, also of one with a mistake."""

    states: list[str] | None  # none for a range, or where neither is known
    bounds: tuple[int, int] | None


def near(word: str, names: Iterable[str]) -> str:
    """The name that is meant, in words, or the names that there are."""
    names = list(dict.fromkeys(names))
    found = difflib.get_close_matches(word.lower(), names, 1, NEARNESS)
    if found:
        return f'; did you mean "{found[0]}"?'
    if not 0 < len(names) <= 8:
        return ""
    return f"; there {'are' if names[1:] else 'is'} {', '.join(names)}"


def named(node: Node) -> str:
    """The name in an object, for a path."""
    name = node.value.get("name") if isinstance(node.value, dict) else None
    return f' "{name.value[:SHOWN]}"' if name and isinstance(name.value, str) else ""


def as_name(text: str) -> str | None:
    """A name like the text, or none."""
    plain = unicodedata.normalize("NFKD", text).encode("ascii", "ignore").decode().lower().strip()
    made = re.sub(r"[^a-z0-9_-]+", "-", plain).lstrip("-_0123456789").rstrip("-_")[:32]
    return made if NAME.fullmatch(made) else None


def why_no_name(text: str) -> str:
    if not text:
        return "it is empty"
    if len(text) > 32:
        return f"it has {len(text)} characters, and a name at most 32"
    if not re.match("[a-z]", text):
        return "it does not begin with a letter from a to z"
    return (
        f"{next(sign for sign in text if not re.match('[a-z0-9_-]', sign))!r} is none of a-z, 0-9, "
        "_ and -"
    )


def why_no_time(text: str) -> str:
    if re.search(r"\d[Zz]$", text):
        return "leave out the Z"
    if text != text.strip():
        return "a blank stands in front or behind"
    if re.match(r"\d{1,2}:\d{2}", text):
        return "the date is missing"
    if re.search(r"[T ]24", text):
        return "a day ends at 23:59:59; 24:00 is 00:00 of the next one"
    if (
        re.match(r"\d{4}-?\d\d-?\d\d", text)
        and read_time(text[:10]) is None
        and read_time(text[:8]) is None
    ):
        return "no month has this day"
    return f"one like {EXAMPLE} is, with two digits for month, day, hour, minute and second"


def meant_by(name: str, absent: list[str]) -> list[str]:
    """The member that is meant by a name, out of those that are not there; in a list, which is
    empty where none is."""
    if name.lower() in NOTES:
        return []
    if MEANT.get(name.lower()) in absent:
        return [MEANT[name.lower()]]
    return difflib.get_close_matches(name.lower(), absent, 1, NEARNESS)


class Walk:
    def __init__(self, data: bytes) -> None:
        self.data, self.mistakes = data, list[Mistake]()
        self.devices: dict[str, Kept] = {}
        self.routines: dict[str, int] = {}  # with their numbers
        self.likes: dict[
            str | None, Kept
        ] = {}  # the devices again, by names like those that are bad
        self.routine_likes: set[str | None] = set()
        self.has_devices = self.has_routines = False
        self.version = 2  # of the format; where it is none, nothing of the later one is refused
        self.meant: set[
            str
        ] = set()  # members of the object that was read last which stand there under other names

    # What is told.

    def tell(self, refusal: str, node: Node | Span, path: str, says: str) -> None:
        at, end = (node.at, node.end) if isinstance(node, Node) else node
        self.mistakes.append(Mistake(refusal, at, end, path, says))

    def expected(self, refusal: str, node: Node, path: str, wanted: str, advice: str = "") -> None:
        self.tell(refusal, node, path, f"expected {wanted}; {self.what(node)} stands there{advice}")

    def what(self, node: Node) -> str:
        """The value as it stands there, in words."""
        match node.value:
            case dict():
                return "an object"
            case list():
                return f"a list of {len(node.value)}"
        text = self.data[node.at : node.end].decode("utf-8", "replace")
        return text if len(text) <= SHOWN else text[: SHOWN - 2] + "…" + text[-1]

    def name_span(self, node: Node, name: str) -> Span:
        """Where the name of a member stands."""
        found = TEXT.match(self.data, node.names[name])
        assert found, "a name is a text"
        return found.span()

    # Shapes.

    def members(self, node: Node, members: tuple[Any, Any], spot: str, path: str) -> Members | None:
        """The members that have their types, also under a name like theirs; none where there is no
        object. The rest is told."""
        if not isinstance(node.value, dict):
            self.expected(f"shape {spot}", node, path, "an object, in braces")
            return None
        required, optional = members
        types: Types = {**required, **optional}
        absent = [name for name in types if name not in node.value]
        good, told = {}, []
        for name, value in node.value.items():
            if name not in types:
                meant = meant_by(name, absent)
                absent = [other for other in absent if other not in meant]
                told.append(
                    (
                        self.name_span(node, name),
                        f', "{name[:SHOWN]}"',
                        self.unknown_member(name, types, meant),
                    )
                )
                name = meant[0] if meant else None
            if name and not types[name](value.value):
                told.append(
                    (
                        value,
                        f', "{name}"',
                        f"expected {TYPES[types[name]]}; {self.what(value)} stands there"
                        + self.typed_otherwise(types[name], value),
                    )
                )
            elif name:
                good[name] = value
        missing = [f'"{name}"' for name in required if name in absent]
        if missing:
            told.insert(
                0,
                (
                    (node.at, node.at + 1),
                    "",
                    f"{' and '.join(missing)} {'are' if missing[1:] else 'is'} missing",
                ),
            )
        for where, step, says in told:
            self.tell(f"shape {spot}", where, path + step, says)
        self.meant = {name for name in types if name not in absent and name not in node.value}
        return good

    def unknown_member(self, name: str, types: Types, meant: list[str]) -> str:
        if meant:
            return f'there is no member "{name[:SHOWN]}"; did you mean "{meant[0]}"?'
        if (name == "when" or MEANT.get(name) == "when") and "do" in types and "when" not in types:
            wanted = "" if name == "when" else ', and are called "when"'
            return (
                f'there is no member "{name}" in version 1 of the format: guards want "safehome": '
                f"2{wanted}"
            )
        if name.lower() in NO_GUARDS and set(types) == {"is", "below"}:
            return f'a guard asks with "is" or with "below" alone, and never with "{name[:SHOWN]}"'
        if name.lower() in NOTES:
            return (
                f'there is no member "{name}": notes, titles and the name of a schema stand '
                "outside (docs/HOW-TO-WRITE.md)"
            )
        return f'there is no member "{name[:SHOWN]}"; the members are {", ".join(types)}'

    def typed_otherwise(self, wanted: Test, node: Node) -> str:
        """Advice on a value of another type."""
        value = node.value
        wants_number = wanted in (script.is_whole, script.is_long, script.is_state)
        if wants_number and isinstance(value, float):
            if value.is_integer() and value >= 0:
                return " (write it in digits alone)"
            return " (there are no fractions and nothing below 0: docs/HOW-TO-WRITE.md)"
        if wants_number and isinstance(value, int) and not isinstance(value, bool):
            return (
                " (there is nothing below 0: docs/HOW-TO-WRITE.md)" if value < 0 else " (too great)"
            )
        if wanted in (script.is_whole, script.is_long, script.is_truth) and isinstance(value, str):
            return " (without the quotes)"
        return ""

    def within(self, kind: str, count: int, node: Node | None, path: str) -> None:
        limit = LIMITS[kind]
        if node and count > limit:
            self.tell(
                f"too many {kind} {count} of {limit}",
                node,
                path,
                f"at most {limit} {kind} (docs/LIMITS.md); {count} "
                + ("are asked for" if kind in ("ms", "probes") else "stand there"),
            )

    def new_name(self, node: Node, names: Container[str], spot: str, path: str, what: str) -> None:
        text = node.value
        if NAME.fullmatch(text) is None:
            like = as_name(text)
            self.tell(
                f"bad name {spot}",
                node,
                path,
                f"{self.what(node)} is no name: {why_no_name(text)}"
                + (f'; "{like}" is one' if like and like != text else ""),
            )
        elif text in names:
            self.tell(f"double name {spot}", node, path, f'"{text}" stands already as {what}')

    # The day.

    def day(self, top: Node) -> None:
        good = self.members(top, script.DAY, "top", "the day")
        if good is None:
            return
        if "safehome" in good and good["safehome"].value not in VERSIONS:
            version = good["safehome"]
            self.expected(
                f"bad version {version.value}",
                version,
                'the day, "safehome"',
                "1 or 2, the version of the format",
            )
        elif "safehome" in good:
            self.version = good["safehome"].value
        lists = {
            kind: good[kind].value if kind in good else []
            for kind in ("devices", "routines", "windows")
        }
        for kind, entries in lists.items():
            self.within(kind, len(entries), good.get(kind), f'the day, "{kind}"')
        for i, node in enumerate(lists["devices"], 1):
            self.device(i, node)
        self.has_devices, self.has_routines = "devices" in good, "routines" in good
        for i, node in enumerate(lists["routines"], 1):
            self.routine(i, node)
        before = None
        for i, node in enumerate(lists["windows"], 1):
            before = self.window(i, node, before) or before

    # Devices.

    def device(self, i: int, node: Node) -> None:
        spot, path = f"device {i}", f"device {i}{named(node)}"
        good = self.members(node, script.DEVICE, spot, path)
        if good is None:
            return
        self.kind_is_one(node, spot, path)
        if "name" in good:
            self.new_name(
                good["name"], self.devices, spot, f'{path}, "name"', "the name of an earlier device"
            )
        states = self.states(good["states"], spot, path) if "states" in good else None
        bounds = None
        if {"low", "high"} <= good.keys() and "states" not in node.value:
            bounds = low, high = good["low"].value, good["high"].value
            if low > high:
                self.tell(
                    f"bad state {spot}",
                    good["low"],
                    f'{path}, "low"',
                    f"low {low} is above high {high}",
                )
                bounds = None
        kept = Kept(states, bounds)
        if "start" in good:
            self.value_fits(kept, good["start"], spot, f'{path}, "start"', "the device")
        if "down" in good:
            self.downs(i, good["down"], path)
        if "name" in good:
            self.devices.setdefault(good["name"].value, kept)
            self.likes.setdefault(as_name(good["name"].value), kept)

    def kind_is_one(self, node: Node, spot: str, path: str) -> None:
        has = node.value.keys() & {"states", "low", "high"}
        if self.meant & {"states", "low", "high"}:
            return
        if "states" in has and len(has) > 1:
            name = "low" if "low" in has else "high"
            self.tell(
                f"shape {spot}",
                self.name_span(node, name),
                f'{path}, "{name}"',
                "a device has states or a range from low to high, never both",
            )
        elif "states" not in has and len(has) < 2:
            missing = {"low": '"high" is missing', "high": '"low" is missing'}.get("".join(has))
            self.tell(
                f"shape {spot}",
                (node.at, node.at + 1),
                path,
                missing or 'it has neither "states" nor "low" and "high"',
            )

    def states(self, node: Node, spot: str, path: str) -> list[str]:
        path = f'{path}, "states"'
        if not node.value:
            self.expected(f"shape {spot}", node, path, "at least one state")
        self.within("states", len(node.value), node, path)
        read: list[str] = []
        for j, state in enumerate(node.value, 1):
            if not isinstance(state.value, str):
                self.expected(
                    f"shape {spot}", state, f"{path}, state {j}", "a name in double quotes"
                )
                continue
            self.new_name(state, read, spot, f"{path}, state {j}", "an earlier state")
            read.append(state.value)
        return read

    def downs(self, i: int, node: Node, path: str) -> None:
        self.within("downs", len(node.value), node, f'{path}, "down"')
        for j, pair in enumerate(node.value, 1):
            ends = [end.value for end in pair.value] if isinstance(pair.value, list) else []
            spot, step = f"down {i}.{j}", f'{path}, "down", pair {j}'
            if len(ends) != 2:
                self.expected(f"shape {spot}", pair, step, "a pair [from, to] of whole numbers")
            elif not all(map(script.is_whole, ends)):
                end = pair.value[0] if not script.is_whole(ends[0]) else pair.value[1]
                self.expected(
                    f"shape {spot}",
                    end,
                    step,
                    TYPES[script.is_whole],
                    self.typed_otherwise(script.is_whole, end),
                )
            elif not 1 <= ends[0] < ends[1]:
                self.tell(
                    f"shape {spot}",
                    pair,
                    step,
                    "calls count from 1"
                    if ends[0] == 0
                    else f"{ends[1]} is not above {ends[0]}: the calls from the first number on, "
                    "and before the second, fail",
                )

    def value_fits(self, kept: Kept, node: Node, spot: str, path: str, what: str) -> None:
        """The value is one of the device, as far as that is known."""
        value = node.value
        if kept.bounds:
            low, high = kept.bounds
            if isinstance(value, str) or not low <= value <= high:
                quoted = (
                    isinstance(value, str) and value.isdigit() and low <= int(value[:20]) <= high
                )
                advice = " (without the quotes it is)" if quoted else ""
                self.tell(
                    f"bad state {spot}",
                    node,
                    path,
                    f"{self.what(node)} is not in the range of {what}, {low} to {high}{advice}",
                )
        elif kept.states:
            if not isinstance(value, str):
                self.tell(
                    f"bad state {spot}",
                    node,
                    path,
                    f"{what} has named states, and no numbers: {self.some(kept.states)}",
                )
            elif value not in kept.states:
                self.tell(
                    f"bad state {spot}",
                    node,
                    path,
                    f"{self.what(node)} is no state of {what}" + near(value, kept.states),
                )

    def some(self, names: list[str]) -> str:
        return ", ".join(names[:8]) + (", .." if len(names) > 8 else "")

    # Routines.

    def guard(self, spot: str, node: Node, path: str) -> None:
        """What an object has that is to be a guard."""
        before = len(self.mistakes)
        self.members(node, GUARD, spot, path)
        is_told = len(self.mistakes) > before
        if not node.value.keys() & {"is", "below"} and not self.meant and not is_told:
            self.tell(
                f"shape {spot}", (node.at, node.at + 1), path, 'it has neither "is" nor "below"'
            )
        elif {"is", "below"} <= node.value.keys():
            self.tell(
                f"shape {spot}",
                self.name_span(node, "below"),
                f'{path}, "below"',
                'a guard has "is" or "below", never both',
            )

    def routine(self, i: int, node: Node) -> None:
        spot, path = f"routine {i}", f"routine {i}{named(node)}"
        good = self.members(node, script.ROUTINE, spot, path)
        if good is None:
            return
        if "name" in good:
            self.new_name(
                good["name"],
                self.routines,
                spot,
                f'{path}, "name"',
                "the name of an earlier routine",
            )
            self.routines.setdefault(good["name"].value, i)
            self.routine_likes.add(as_name(good["name"].value))
        if "commands" in good:
            if not good["commands"].value:
                self.expected(
                    f"shape {spot}", good["commands"], f'{path}, "commands"', "at least one command"
                )
            self.within(
                "commands", len(good["commands"].value), good["commands"], f'{path}, "commands"'
            )
            for j, command in enumerate(good["commands"].value, 1):
                self.command(f"command {i}.{j}", command, f"{path}, command {j}")

    def command(self, spot: str, node: Node, path: str) -> None:
        on = node.value.get("on") if isinstance(node.value, dict) else None
        path += f" ({on.value[:SHOWN]})" if on and isinstance(on.value, str) else ""
        good = self.members(node, script.COMMAND if self.version == 1 else GUARDED, spot, path)
        if good is None:
            return
        meant = self.meant
        if "when" in good:
            self.guard(spot, good["when"], f'{path}, "when"')
        job = good["do"].value if "do" in good else None
        if job is not None and job not in JOBS:
            advice = near(job, JOBS).partition("; there ")[0]
            self.expected(
                f"shape {spot}", good["do"], f'{path}, "do"', f"one of {', '.join(JOBS)}", advice
            )
        elif job in ("set", "check") and "to" not in node.value and "to" not in meant:
            self.tell(
                f"shape {spot}",
                (node.at, node.at + 1),
                path,
                f'"to" is missing: the value that a {job} wants',
            )
        elif job in ("load", "store") and "to" in node.value:
            self.tell(
                f"shape {spot}",
                self.name_span(node, "to"),
                f'{path}, "to"',
                f'a {job} has no "to": '
                + ("it takes what it finds" if job == "load" else "it drives to what was loaded"),
            )
        if "on" in good and self.has_devices:
            name = good["on"].value
            kept = self.devices.get(name) or self.likes.get(name)
            if kept is None:
                self.tell(
                    f"unknown name {spot}",
                    good["on"],
                    f'{path}, "on"',
                    f'no device is named "{name[:SHOWN]}"' + near(name, self.devices),
                )
            elif "to" in good and job in ("set", "check", None):
                self.value_fits(kept, good["to"], spot, f'{path}, "to"', name)
        for member in ("ms", "takes"):
            if member in good:
                self.within("ms", good[member].value, good[member], f'{path}, "{member}"')

    # Windows.

    def window(self, i: int, node: Node, before: Time | None) -> Time | None:
        """The time of the window, where it has one."""
        spot, path = f"window {i}", f"window {i}"
        good = self.members(node, script.WINDOW, spot, path)
        if good is None:
            return None
        at = self.time(good["at"], before, spot, path) if "at" in good else None
        runs = good["runs"].value if "runs" in good else None
        turns = good["turns"].value if "turns" in good else []
        if "probes" in good:
            self.within("probes", good["probes"].value, good["probes"], f'{path}, "probes"')
        self.within("turns", len(turns), good.get("turns"), f'{path}, "turns"')
        self.within("runs", len(runs or []), good.get("runs"), f'{path}, "runs"')
        for j, turn in enumerate(turns, 1):
            step = f'{path}, "turns", turn {j}'
            if not script.is_whole(turn.value):
                self.expected(
                    f"shape {spot}",
                    turn,
                    step,
                    TYPES[script.is_whole],
                    self.typed_otherwise(script.is_whole, turn),
                )
            elif runs is not None and turn.value > len(runs):
                self.tell(
                    f"bad turn turn {i}.{j}",
                    turn,
                    step,
                    f"there is no run {turn.value}: the window has "
                    f"{len(runs)}, from 1, and 0 is the detector",
                )
        for j, run in enumerate(runs or [], 1):
            self.run(i, j, run, path)
        return at

    def time(self, node: Node, before: Time | None, spot: str, path: str) -> Time | None:
        at = read_time(node.value)
        if at is None:
            self.tell(
                f"bad time {spot}",
                node,
                f'{path}, "at"',
                f"{self.what(node)} is no time: {why_no_time(node.value)}",
            )
        elif before is not None and at <= before:
            self.tell(
                f"bad time {spot}",
                node,
                f'{path}, "at"',
                f"{self.what(node)} is not later than the time of the window before, "
                f"{time_text(before)}",
            )
        return at

    def run(self, i: int, j: int, node: Node, path: str) -> None:
        spot, path = f"run {i}.{j}", f"{path}, run {j}"
        routine = node.value.get("routine") if isinstance(node.value, dict) else None
        path += f" ({routine.value[:SHOWN]})" if routine and isinstance(routine.value, str) else ""
        good = self.members(node, script.RUN, spot, path)
        if good is None:
            return
        if (
            "routine" in good
            and self.has_routines
            and good["routine"].value not in {*self.routines, *self.routine_likes}
        ):
            name = good["routine"].value
            self.tell(
                f"unknown name {spot}",
                good["routine"],
                f'{path}, "routine"',
                f'no routine is named "{name[:SHOWN]}"' + near(name, self.routines),
            )
        if "follows" in good and not 1 <= good["follows"].value < j:
            told = (
                "there is no earlier one"
                if j == 1
                else "it may follow run 1" + (f" to {j - 1}" if j > 2 else "")
            )
            self.tell(
                f"bad follow {spot}",
                good["follows"],
                f'{path}, "follows"',
                f"run {j} cannot follow run {good['follows'].value}: {told}",
            )


def mistakes_of(data: bytes) -> tuple[list[Mistake], Node | None]:
    """All mistakes of the text, in the order of the walk, and its value with places, or none where
    it is no JSON text."""
    if len(data) > LIMITS["bytes"]:
        count, limit = LIMITS["bytes"] + 1, LIMITS["bytes"]
        says = f"at most {limit} bytes (docs/LIMITS.md); {len(data)} stand there"
        return [
            Mistake(f"too many bytes {count} of {limit}", limit, limit + 1, "the script", says)
        ], None
    try:
        top = read_places(data)
    except NotJson as broken:
        return [Mistake("not json", broken.at, broken.at + 1, "the script", broken.why)], None
    walk = Walk(data)
    walk.day(top)
    return walk.mistakes, top
