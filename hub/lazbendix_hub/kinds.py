"""Kinds of devices: how the whole numbers of the core are words of home.yaml and payloads of MQTT.

One thing of the house is one device of the core where its properties depend on each other: a dimmer
is 0 for off and 1 to 254 for its brightness, since `state` and `brightness` would fight as two.
Tolerance is here: a lamp that was sent 120 and shows 119 did what it was told.
"""
from __future__ import annotations

import math
from typing import Mapping, Sequence

Payload = dict[str, object]


class BadWord(Exception):
    """A word that is no value of the device; its text says what would be."""


class Kind:
    """What a device of the core is on the wire. `limit` and `age` are in seconds."""

    is_sensor: bool = False
    limit: float | None = None
    low = 0
    high = 1
    states: tuple[str, ...] = ()

    def payload(self, value: int) -> Payload:
        """What is sent to drive the device to the value."""
        raise NotImplementedError

    def value(self, told: Mapping[str, object]) -> int | None:
        """The value that a message shows, none where it shows none."""
        raise NotImplementedError

    def asked(self) -> Payload:
        """What is sent to ask the device where it stands."""
        raise NotImplementedError

    def of_word(self, word: str) -> int:
        """The value of a word of home.yaml. Raises `BadWord`."""
        raise NotImplementedError

    def word(self, value: int) -> str:
        """The word of a value, as pages show it."""
        return self.states[value] if self.states and value < len(self.states) else str(value)

    def is_near(self, value: int, wanted: int) -> bool:
        """Whether a device that shows the one value does what the other one asks."""
        return value == wanted

    def toggled(self) -> tuple[int, int] | None:
        """Where a toggle takes a device that is at rest, and how many values from the least one
        on count as rest; none where it has no two values to toggle between."""
        return (1, 1) if len(self.states) == 2 and not self.is_sensor else None

    def core(self, name: str, start: int) -> Payload:
        """The device of the core's script."""
        if self.states:
            return {"name": name, "states": list(self.states), "start": self.states[start]}
        return {"name": name, "low": self.low, "high": self.high, "start": start}


def real(given: object) -> float | None:
    """A number of JSON, none where it is another thing, or not finite."""
    if isinstance(given, bool) or not isinstance(given, (int, float)):
        return None
    try:
        number = float(given)
    except OverflowError:
        return None
    return number if math.isfinite(number) else None


class Named(Kind):
    """Named states. Of the payloads of each the first is sent, and all are heard."""

    def __init__(self, prop: str, states: Mapping[str, Sequence[object]],
                 also: Mapping[str, str] | None = None, is_sensor: bool = False) -> None:
        self.prop, self.is_sensor = prop, is_sensor
        self.states = tuple(states)
        self.sent = [payloads[0] for payloads in states.values()]
        self.heard = {(type(each), each): at for at, payloads in enumerate(states.values())
                      for each in payloads}
        self.words = {state: at for at, state in enumerate(states)}
        self.words |= {word: self.words[state] for word, state in (also or {}).items()}
        self.high = len(states) - 1

    def payload(self, value: int) -> Payload:
        return {self.prop: self.sent[value]}

    def value(self, told: Mapping[str, object]) -> int | None:
        given = told.get(self.prop)
        if not isinstance(given, (str, bool, int, float)):
            return None
        return self.heard.get((type(given), given))

    def asked(self) -> Payload:
        return {self.prop: ""}

    def of_word(self, word: str) -> int:
        if word not in self.words:
            raise BadWord(f"one of {', '.join(self.states)}")
        return self.words[word]


class Dimmer(Kind):
    """0 is off, 1 to `high` the brightness."""

    def __init__(self, tolerance: float = 1, level: str = "brightness", switch: str = "state",
                 high: int = 254, needs_switch: bool = True) -> None:
        self.tolerance, self.level, self.switch = tolerance, level, switch
        self.high, self.needs_switch = high, needs_switch

    def payload(self, value: int) -> Payload:
        if not value:
            return {self.switch: "OFF"}
        level: Payload = {self.level: value}
        return {self.switch: "ON", **level} if self.needs_switch else level

    def value(self, told: Mapping[str, object]) -> int | None:
        if told.get(self.switch) == "OFF":
            return 0
        level = real(told.get(self.level))
        if level is None:
            return None
        return min(max(1, round(level)), self.high)

    def toggled(self) -> tuple[int, int] | None:
        return self.high, 1

    def asked(self) -> Payload:
        return {self.switch: "", self.level: ""}

    def of_word(self, word: str) -> int:
        if word in ("on", "off"):
            return self.high if word == "on" else 0
        number, is_share = number_of(word.removesuffix("%")), word.endswith("%")
        if number is None or not 0 <= number <= (100 if is_share else self.high) \
                or not (is_share or number == int(number)):
            raise BadWord(f"on, off, a brightness from 0 to {self.high}, or a share as 40%")
        if is_share:
            return max(1, round(number * self.high / 100)) if number else 0
        return int(number)

    def is_near(self, value: int, wanted: int) -> bool:
        return value == wanted or (0 < value and 0 < wanted
                                   and abs(value - wanted) <= self.tolerance)


class Steps(Kind):
    """A number in steps: the core counts them from the least one, as it has no fractions."""

    def __init__(self, prop: str, least: float, most: float, step: float = 1, tolerance: float = 0,
                 words: Mapping[str, float] | None = None, is_sensor: bool = False,
                 limit: float | None = None) -> None:
        self.prop, self.least, self.most, self.step = prop, least, most, step
        self.tolerance, self.named = tolerance / step, dict(words or {})
        self.high = round((most - least) / step)
        self.is_sensor, self.limit = is_sensor, limit

    def real(self, value: int) -> float:
        """The number for the device."""
        number = round(self.least + value * self.step, 6)
        return int(number) if number == int(number) else number

    def payload(self, value: int) -> Payload:
        return {self.prop: self.real(value)}

    def value(self, told: Mapping[str, object]) -> int | None:
        number = real(told.get(self.prop))
        if number is None:
            return None
        return round(min(max((number - self.least) / self.step, 0), self.high))

    def toggled(self) -> tuple[int, int] | None:
        return (self.high, 1 + int(self.tolerance)) if self.named else None

    def asked(self) -> Payload:
        return {self.prop: ""}

    def of_word(self, word: str) -> int:
        number = self.named.get(word, number_of(word))
        steps = None if number is None else (number - self.least) / self.step
        if steps is None or not -1e-6 <= steps <= self.high + 1e-6 \
                or abs(steps - round(steps)) > 1e-6:
            names = "".join(f"{name}, " for name in self.named)
            raise BadWord(f"{names}a number from {self.least:g} to {self.most:g} in steps of "
                          f"{self.step:g}")
        return round(steps)

    def word(self, value: int) -> str:
        return str(self.real(value))

    def is_near(self, value: int, wanted: int) -> bool:
        return abs(value - wanted) <= self.tolerance + 1e-6


class Palette(Kind):
    """Named points of colour. A lamp tells another point than it was sent: the nearest counts."""

    NEAR = 0.03

    def __init__(self, points: Mapping[str, tuple[float, float]]) -> None:
        self.states, self.points = tuple(points), list(points.values())
        self.high = len(self.points) - 1

    def payload(self, value: int) -> Payload:
        x, y = self.points[value]
        return {"color": {"x": x, "y": y}}

    def value(self, told: Mapping[str, object]) -> int | None:
        colour = told.get("color")
        if not isinstance(colour, dict):
            return None
        x, y = real(colour.get("x")), real(colour.get("y"))
        if x is None or y is None:
            return None
        far = [math.hypot(x - a, y - b) for a, b in self.points]
        return far.index(min(far)) if min(far) < self.NEAR else None

    def asked(self) -> Payload:
        return {"color": {"x": "", "y": ""}}

    def of_word(self, word: str) -> int:
        if word not in self.states:
            raise BadWord(f"one of {', '.join(self.states)}")
        return self.states.index(word)


def number_of(word: str) -> float | None:
    """The number that a word writes, none where it writes none."""
    try:
        number = float(word)
    except ValueError:
        return None
    return number if math.isfinite(number) else None


SWITCHES = {"off": ["OFF"], "on": ["ON"]}
VALVES = {"off": "shut", "on": "open", "closed": "shut"}
# The states of an entity of Home Assistant that are words, and other names of them.
ENTITY_STATES: dict[str, tuple[dict[str, list[str]], dict[str, str]]] = {
    "switch": ({"off": ["off"], "on": ["on"]}, {}),
    "plug": ({"off": ["off"], "on": ["on"]}, {}),
    "valve": ({"shut": ["closed", "off"], "open": ["open", "on"]}, VALVES),
    "lock": ({"unlocked": ["unlocked", "open"], "locked": ["locked"]}, {}),
    "contact": ({"open": ["on"], "shut": ["off"]}, {"closed": "shut"}),
    "motion": ({"clear": ["off"], "motion": ["on"]}, {"none": "clear"})}
# The same of any device over MQTT.
PLAIN_STATES: dict[str, tuple[dict[str, list[str]], dict[str, str]]] = {
    "switch": ({"off": ["OFF"], "on": ["ON"]}, {}),
    "plug": ({"off": ["OFF"], "on": ["ON"]}, {}),
    "valve": ({"shut": ["CLOSE", "CLOSED", "OFF"], "open": ["OPEN", "ON"]}, VALVES),
    "lock": ({"unlocked": ["UNLOCK", "UNLOCKED"], "locked": ["LOCK", "LOCKED"]}, {}),
    "contact": ({"open": ["ON"], "shut": ["OFF"]}, {"closed": "shut"}),
    "motion": ({"clear": ["OFF"], "motion": ["ON"]}, {"none": "clear"})}
COLOURS = {"white": (0.3127, 0.329), "warm": (0.46, 0.41), "red": (0.68, 0.31),
           "green": (0.17, 0.7), "blue": (0.15, 0.06), "yellow": (0.44, 0.52),
           "orange": (0.57, 0.41), "violet": (0.25, 0.1)}
