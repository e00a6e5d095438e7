"""What a home.yaml says: where the broker and the page are, devices, routines, triggers."""
from __future__ import annotations

import json
from dataclasses import dataclass, field
from enum import Enum
from typing import Mapping, Union

from lazbendix_hub.kinds import Kind

LOOPBACK = ("127.0.0.1", "localhost", "::1")
ASSISTANT = "home-assistant"
PLAIN = "mqtt"
MAKERS = ("zigbee2mqtt", "tasmota", ASSISTANT, PLAIN)


@dataclass(frozen=True)
class BrokerPlace:
    """Where the broker is, and how one speaks to it."""

    host: str = "127.0.0.1"  # empty: there is none
    port: int = 1883
    user: str = ""
    password: str = ""
    ca: str = ""  # a file of certificates: then TLS


@dataclass(frozen=True)
class AssistantPlace:
    """Where Home Assistant is, and its long-lived access token."""

    url: str
    token: str


@dataclass(frozen=True)
class PagePlace:
    """Where the page is served. Without a token nobody but this machine reaches it."""

    host: str = "127.0.0.1"
    port: int = 8099
    token: str = ""

    @property
    def is_own(self) -> bool:
        """Whether it is bound to this machine alone."""
        return self.host in LOOPBACK


@dataclass(frozen=True)
class Wire:
    """How a device that is neither of Zigbee2MQTT nor of Tasmota is spoken to: where its commands
    go, the property of JSON that is its value, where it says whether it is there."""

    set: str
    prop: str
    is_json: bool
    availability: str
    online: str
    offline: str


@dataclass(frozen=True)
class Device:
    """A thing of the house; its topic is an entity where its maker is Home Assistant. `limit` is
    the time in which it has to show a value, `age` that after which a sensor that is silent counts
    as one that does not answer."""

    name: str
    label: str
    maker: str
    topic: str
    kind: Kind
    limit: float
    age: float
    is_sleepy: bool
    relay: str = ""
    wire: Wire | None = None


class Job(Enum):
    """What a command does with its device: drives it to a value, checks that it stands there, or
    finds out where it stands."""

    SET = "set"
    CHECK = "check"
    LOAD = "load"


@dataclass(frozen=True)
class Command:
    """A command of the core. It belongs to the step of this number of its routine, from 1: a step
    for a group has several, as has a toggle. `guard` is of what the run has loaded last: `is` or
    `below`, and a number; where it does not hold the command is skipped."""

    device: int
    value: int
    job: Job
    is_must: bool
    step: int
    guard: tuple[str, int] | None = None


@dataclass(frozen=True)
class TopicTrigger:
    """A message, not a retained one, with this payload, or with this word in its JSON."""

    topic: str
    payload: str | None
    prop: str | None


@dataclass(frozen=True)
class EntityTrigger:
    """An entity of Home Assistant comes to a state, or to any other one, as a button does."""

    entity: str
    to: str


@dataclass(frozen=True)
class CronTrigger:
    """A time in five fields of cron."""

    cron: str


@dataclass(frozen=True)
class SunTrigger:
    """Sunrise or sunset, and seconds after it, or before it where they are negative."""

    is_rise: bool
    offset: float


@dataclass(frozen=True)
class DeviceTrigger:
    """A device comes to a value (`is`), or above or below it; or has stood so for `after` seconds,
    without having left it meanwhile."""

    device: int
    how: str
    value: int
    after: float | None

    def holds(self, value: int) -> bool:
        """Whether a device at this value is meant."""
        if self.how == "above":
            return value > self.value
        return value < self.value if self.how == "below" else value == self.value


@dataclass(frozen=True)
class RoutineTrigger:
    """So many seconds after another routine has committed; begun anew by its next trigger."""

    routine: str
    after: float


Trigger = Union[TopicTrigger, EntityTrigger, CronTrigger, SunTrigger, DeviceTrigger,
                RoutineTrigger]


@dataclass(frozen=True)
class Routine:
    """What is done, and what begins it. A trigger that waited for `fresh` seconds is too old."""

    name: str
    label: str
    commands: tuple[Command, ...]
    triggers: tuple[Trigger, ...]
    fresh: float

    @property
    def devices(self) -> frozenset[int]:
        """The devices of its commands."""
        return frozenset(command.device for command in self.commands)


@dataclass(frozen=True)
class Home:
    """The whole file. The devices that routines use come first: these are those of the core."""

    broker: BrokerPlace
    assistant: AssistantPlace | None
    page: PagePlace
    base: str
    zigbee2mqtt: str
    discovery: str  # empty: none
    place: tuple[float, float] | None
    gather: float | None
    devices: tuple[Device, ...]
    core_count: int
    routines: tuple[Routine, ...]
    numbers: Mapping[str, int] = field(default_factory=dict)

    def script(self, starts: Mapping[str, int]) -> bytes:
        """The core's script, with each device at its start, or at its least value."""
        core = self.devices[: self.core_count]
        devices = [each.kind.core(each.name, starts.get(each.name, each.kind.low)) for each in core]
        routines = [{"name": each.name, "commands": [self._command(it) for it in each.commands]}
                    for each in self.routines]
        has_guards = any(it.guard for each in self.routines for it in each.commands)
        return json.dumps({"safehome": 2 if has_guards else 1, "devices": devices,
                           "routines": routines, "windows": []}).encode()

    def _command(self, command: Command) -> dict[str, object]:
        device = self.devices[command.device]
        to = device.kind.states[command.value] if device.kind.states else command.value
        told: dict[str, object] = {"on": device.name, "do": command.job.value,
                                   "must": command.is_must}
        if command.job is not Job.LOAD:
            told["to"] = to
        if command.guard is not None:
            told["when"] = {command.guard[0]: command.guard[1]}
        return told
