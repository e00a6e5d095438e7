"""How a home.yaml is read: every mistake is reported by its line."""
from __future__ import annotations

import re
from dataclasses import replace
from typing import Mapping

from croniter import croniter

from lazbendix_hub import kinds
from lazbendix_hub.home import (ASSISTANT, MAKERS, PLAIN, AssistantPlace, BrokerPlace, Command,
                                CronTrigger, Device, DeviceTrigger, EntityTrigger, Home, Job,
                                PagePlace, Routine, RoutineTrigger, SunTrigger, TopicTrigger,
                                Trigger, Wire)
from lazbendix_hub.kinds import BadWord, Kind
from lazbendix_hub.yamls import Mistake, Mistakes, Node, Table, read_yaml, seconds_of, shown

NAME = re.compile(r"[a-z][a-z0-9_-]{0,31}")
MOST_DEVICES, MOST_ROUTINES, MOST_COMMANDS, MOST_STATES = 256, 1024, 64, 256
TOP = ("broker", "home-assistant", "page", "base", "zigbee2mqtt", "discovery", "place", "limit",
       "gather", "devices", "groups", "routines")
KINDS = ("switch", "plug", "dimmer", "blinds", "lock", "valve", "climate", "colour-temperature",
         "colour", "contact", "motion", "thermometer", "number", "choice")
OTHER_NAMES = {"color": "colour", "color-temperature": "colour-temperature", "light": "dimmer",
               "cover": "blinds", "onoff": "switch", "socket": "plug"}
TASMOTA = ("switch", "plug", "valve", "dimmer", "blinds")
ENTITY = re.compile(r"[a-z0-9_]+\.[a-z0-9_]+")
SWITCHED = ("switch", "light", "input_boolean", "fan", "siren", "humidifier", "remote")
DOMAINS = {"switch": SWITCHED, "plug": SWITCHED, "dimmer": ("light",), "blinds": ("cover",),
           "lock": ("lock",), "valve": ("valve", "cover", "switch", "input_boolean"),
           "climate": ("climate",), "colour-temperature": ("light",), "colour": ("light",),
           "contact": ("binary_sensor",), "motion": ("binary_sensor",), "thermometer": ("sensor",),
           "number": ("number", "input_number", "fan", "sensor"),
           "choice": ("select", "input_select", "climate", "sensor", "binary_sensor")}
# By maker the properties of blinds, climate, thermometer and number.
STEPPED = {"zigbee2mqtt": ("position", "occupied_heating_setpoint", "temperature", ""),
           "tasmota": ("ShutterPosition1", "", "", ""),
           ASSISTANT: ("current_position", "temperature", "number", "number"),
           PLAIN: ("value", "value", "value", "value")}
DO = ("set", "check", "toggle")


def read_home(text: str) -> tuple[Home | None, list[Mistake]]:
    """The home of the text, none where something is wrong, and all that is wrong."""
    mistakes = Mistakes()
    tree = read_yaml(text, mistakes)
    home = _Reader(mistakes).home(tree) if tree is not None else None
    found = sorted(set(mistakes.found))
    return (None if found else home), found


class _Reader:
    def __init__(self, mistakes: Mistakes) -> None:
        self.mistakes = mistakes
        self.devices: dict[str, Device | None] = {}
        self.lines: dict[str, int] = {}
        self.groups: dict[str, list[str]] = {}

    def home(self, tree: Node) -> Home:
        top = Table(tree, "the file", self.mistakes)
        broker = self.broker(top.get("broker"))
        assistant = self.assistant(top.get("home-assistant"))
        self.has_broker, self.has_assistant = bool(broker.host), assistant is not None
        page = self.page(top.get("page"))
        base = self.topic(top, "base", "lazbendix")
        zigbee = self.topic(top, "zigbee2mqtt", "zigbee2mqtt")
        discovery = top.get("discovery")
        prefix = "homeassistant"
        if discovery is not None:
            prefix = "" if discovery.raw in ("off", "no", "false") else \
                self.topic(top, "discovery", prefix)
        place = self.place(top.get("place"))
        limit = top.seconds("limit", 5.0, 600) or 5.0
        gather = top.number("gather", -1, 0, 1)
        listed = top.get("devices", True)
        if listed is not None:
            self.read_devices(listed, limit)
        self.read_groups(top.get("groups"))
        routines, order = self.read_routines(top.get("routines", True), place)
        top.end()
        return self.arrange(Home(broker, assistant, page, base, zigbee,
                                 prefix if broker.host else "", place,
                                 None if gather < 0 else gather, (), 0, ()), routines, order)

    def arrange(self, home: Home, routines: list[Routine], order: list[str]) -> Home:
        """The home with the devices that routines use in front."""
        used = {order[number] for routine in routines for number in routine.devices}
        kept = [name for name in order if name in used] + [each for each in order
                                                           if each not in used]
        if len(used) > MOST_DEVICES:
            self.mistakes.add(1, f"routines use {len(used)} devices, and may use {MOST_DEVICES}")
        numbers = {name: at for at, name in enumerate(kept)}
        at = {old: numbers[name] for old, name in enumerate(order)}
        arranged = []
        for routine in routines:
            commands = tuple(replace(it, device=at[it.device]) for it in routine.commands)
            triggers = tuple(DeviceTrigger(at[it.device], it.how, it.value, it.after)
                             if isinstance(it, DeviceTrigger) else it for it in routine.triggers)
            arranged.append(Routine(routine.name, routine.label, commands, triggers,
                                    routine.fresh))
        devices = tuple(device for name in kept if (device := self.devices[name]) is not None)
        return replace(home, devices=devices, core_count=len(used), routines=tuple(arranged),
                       numbers=numbers)

    def topic(self, table: Table, key: str, default: str) -> str:
        text = table.text(key, default)
        if any(each in text for each in "+#\0") or text.startswith(("/", "$")) \
                or text.endswith("/"):
            node = table.rows[key]
            table.wrong(node, key, "a topic without `+`, `#`, or a slash at its ends")
        return text

    def secret(self, table: Table, key: str) -> str:
        """A text, or the first line of the file that `KEY_file` names."""
        text, path = table.text(key), table.text(f"{key}_file")
        if not path:
            return text
        try:
            with open(path, encoding="utf-8") as file:
                return file.readline().strip()
        except (OSError, UnicodeDecodeError) as error:
            why = error.strerror if isinstance(error, OSError) else "is no text"
            self.mistakes.add(table.rows[f"{key}_file"].line, f"{shown(path)}: {why}")
            return text

    def broker(self, node: Node | None) -> BrokerPlace:
        if node is None:
            return BrokerPlace()
        if node.raw in ("off", "no", "false"):
            return BrokerPlace("")
        table = Table(node, "`broker`", self.mistakes)
        place = BrokerPlace(table.text("host", "127.0.0.1"),
                            int(table.number("port", 1883, 1, 65535)), table.text("user"),
                            self.secret(table, "password"), table.text("ca"))
        table.end()
        return place

    def assistant(self, node: Node | None) -> AssistantPlace | None:
        if node is None:
            return None
        table = Table(node, "`home-assistant`", self.mistakes)
        place = AssistantPlace(table.text("url", "http://homeassistant.local:8123"),
                               self.secret(table, "token"))
        scheme, _, rest = place.url.partition("://")
        if scheme not in ("http", "https") or not rest.strip("/"):
            table.wrong(table.rows["url"], "url", "an address as http://homeassistant.local:8123")
        if not place.token:
            self.mistakes.add(node.line, "`home-assistant` wants a `token`, or a `token_file`: a "
                                         "long-lived access token of its user's page")
        table.end()
        return place

    def page(self, node: Node | None) -> PagePlace:
        if node is None:
            return PagePlace()
        table = Table(node, "`page`", self.mistakes)
        page = PagePlace(table.text("host", "127.0.0.1"),
                         int(table.number("port", 8099, 0, 65535)), self.secret(table, "token"))
        if not page.is_own and len(page.token) < 16:
            self.mistakes.add(node.line, "a page that others reach wants a `token` of at least 16 "
                                         "characters, or a `token_file`")
        table.end()
        return page

    def place(self, node: Node | None) -> tuple[float, float] | None:
        if node is None:
            return None
        table = Table(node, "`place`", self.mistakes)
        for key in ("latitude", "longitude"):
            table.get(key, True)
        there = table.number("latitude", 0, -90, 90), table.number("longitude", 0, -180, 180)
        table.end()
        return there

    def name(self, name: str, line: int, what: str) -> None:
        if not NAME.fullmatch(name):
            self.mistakes.add(line, f"`{shown(name)}` is no name of a {what}: it begins with a "
                                    "letter, has at most 32 of a-z, 0-9, _ and -; any text may "
                                    "stand in its `label`")

    # -- Devices

    def read_devices(self, node: Node, limit: float) -> None:
        table = Table(node, "`devices`", self.mistakes)
        topics: dict[tuple[str, str, str], str] = {}
        if table.node.table is not None and not table.rows:
            self.mistakes.add(node.line, "there is no device")
        for name, row in table.rows.items():
            self.lines[name] = node.keys[name]
            self.name(name, node.keys[name], "device")
            before = len(self.mistakes.found)
            device = self.device(name, row, limit)
            self.devices[name] = device if len(self.mistakes.found) == before else None
            if device is not None:
                prop = next(iter(device.kind.asked()))
                prop = f"{prop} {device.wire.prop}" if device.wire is not None else prop
                key = (device.maker, device.topic, f"{device.relay}{prop}")
                if key in topics:
                    self.mistakes.add(node.keys[name], f"`{name}` is the same thing as "
                                                       f"`{topics[key]}`: topic and property")
                topics[key] = name

    def device(self, name: str, node: Node, limit: float) -> Device | None:
        table = Table(node, f"device `{shown(name)}`", self.mistakes)
        word = table.text("kind", is_wanted=True)
        kind_word = OTHER_NAMES.get(word, word)
        if word and kind_word not in KINDS:
            self.mistakes.unknown(table.rows["kind"].line, "kind", word, KINDS)
        maker = self.maker(table)
        topic = self.entity(table, kind_word) if maker == ASSISTANT else \
            self.topic(table, "topic", name)
        wire = self.wire(table, kind_word) if maker == PLAIN else None
        label, relay = table.text("label", name), ""
        if maker == "tasmota":
            relay = str(int(table.number("relay", 0, 0, 32)) or "")
            if kind_word in KINDS and kind_word not in TASMOTA:
                self.mistakes.add(node.line, f"over Tasmota a device is one of "
                                             f"{', '.join(TASMOTA)}, not {kind_word}")
        kind = self.kind(kind_word, table, maker, relay) if kind_word in KINDS else None
        if kind is not None and topic.startswith(("sensor.", "binary_sensor.")) \
                and maker == ASSISTANT:
            kind.is_sensor = True
        is_sleepy = table.flag("sleepy", wire is not None or (kind is not None and kind.is_sensor))
        if wire is not None and not wire.set and kind is not None and not kind.is_sensor:
            self.mistakes.add(node.line, f"{table.what} has no `set`, the topic of its commands")
        own = table.seconds("limit", (kind.limit if kind else None) or limit, 3600)
        age = table.seconds("age", 86400.0, 30 * 86400)
        if kind is not None:
            table.end()
        if kind is None or own is None or age is None:
            return None
        return Device(name, label, maker, topic, kind, own, age, is_sleepy, relay, wire)

    def wire(self, table: Table, kind: str) -> Wire:
        """The topics and words of a device over MQTT that is of no known maker."""
        prop, is_json = table.text("property"), table.flag("json", kind in ("dimmer", "colour"))
        wire = Wire(self.topic(table, "set", ""), prop, is_json,
                    self.topic(table, "availability", ""), table.text("online", "online"),
                    table.text("offline", "offline"))
        if is_json and not prop and kind not in ("dimmer", "colour"):
            self.mistakes.add(table.node.line, f"{table.what} has JSON, and no `property` of it")
        return wire

    def plain_kind(self, word: str, table: Table) -> Kind:
        """A kind with two states, whose words `values` may say: one that is sent, or a list of that
        and of others that are heard."""
        given, also = kinds.PLAIN_STATES[word]
        states: dict[str, list[object]] = {name: list(words) for name, words in given.items()}
        node = table.get("values")
        rows = Table(node, f"`values` of {table.what}", self.mistakes).rows if node else {}
        for name, row in rows.items():
            words = [each.raw for each in row.items or [row] if each.raw]
            if name not in states:
                self.mistakes.unknown(row.line, "value", name, states)
            elif not words or len(words) < len(row.items or [row]):
                self.mistakes.add(row.line, f"`{name}` is to be a word, or a list of words")
            else:
                states[name] = list(words)
        return kinds.Named("value", states, also, word in ("contact", "motion"))

    def maker(self, table: Table) -> str:
        maker = table.text("maker", ASSISTANT if table.has("entity") else MAKERS[0])
        if maker not in MAKERS:
            self.mistakes.unknown(table.rows["maker"].line, "maker", maker, MAKERS)
        elif maker != ASSISTANT and not self.has_broker:
            self.mistakes.add(table.node.line, f"{table.what} is over MQTT, and `broker` is off")
        elif maker == ASSISTANT and not self.has_assistant:
            self.mistakes.add(table.node.line, f"{table.what} is an entity: the file wants "
                                               "`home-assistant: {url: .., token_file: ..}`")
        return maker

    def entity(self, table: Table, kind: str) -> str:
        entity = table.text("entity", is_wanted=True)
        if entity and not ENTITY.fullmatch(entity):
            table.wrong(table.rows["entity"], "entity", "an entity as light.hall")
        domain = entity.partition(".")[0]
        if entity and kind in DOMAINS and domain not in DOMAINS[kind]:
            self.mistakes.add(table.node.line, f"a {kind} is an entity of "
                                               f"{', '.join(DOMAINS[kind])}, not {shown(domain)}")
        return entity

    def entity_kind(self, word: str, table: Table) -> Kind | None:
        """The kinds whose states are words, as Home Assistant has them, and dimmers."""
        if word == "dimmer":
            return kinds.Dimmer(table.number("tolerance", 3, 0, 50), "brightness", "power", 255)
        states, also = kinds.ENTITY_STATES[word]
        return kinds.Named("state", states, also, word in ("contact", "motion"))

    def kind(self, word: str, table: Table, maker: str, relay: str) -> Kind | None:
        if maker == ASSISTANT and (word == "dimmer" or word in kinds.ENTITY_STATES):
            return self.entity_kind(word, table)
        if maker == PLAIN and word in kinds.PLAIN_STATES:
            return self.plain_kind(word, table)
        power = f"POWER{relay}" if maker == "tasmota" else table.text("property", "state") \
            if word in ("switch", "plug", "valve", "lock") else "state"
        if word in ("switch", "plug"):
            return kinds.Named(power, kinds.SWITCHES)
        if word == "valve":
            return kinds.Named(power, {"shut": ["OFF", "CLOSE"], "open": ["ON", "OPEN"]},
                               kinds.VALVES)
        if word == "lock":
            return kinds.Named(power, {"unlocked": ["UNLOCK", "UNLOCKED"],
                                       "locked": ["LOCK", "LOCKED"]})
        if word == "dimmer" and maker == "tasmota":
            return kinds.Dimmer(table.number("tolerance", 1, 0, 20), "Dimmer", power, 100, False)
        if word == "dimmer":
            return kinds.Dimmer(table.number("tolerance", 1, 0, 50))
        if word == "contact":
            return kinds.Named(table.text("property", "contact"),
                               {"open": [False], "shut": [True]}, {"closed": "shut"}, True)
        if word == "motion":
            return kinds.Named(table.text("property", "occupancy"),
                               {"clear": [False], "motion": [True]}, {"none": "clear"}, True)
        if word == "choice":
            return self.choice(table, maker)
        if word == "colour":
            return self.palette(table)
        return self.steps(word, table, maker)

    def steps(self, word: str, table: Table, maker: str) -> Kind | None:
        shutter, setpoint, degrees, own = STEPPED[maker if maker in STEPPED else MAKERS[0]]
        given: dict[str, tuple[str, float, float, float, float]] = {
            "blinds": (shutter, 0, 100, 1, 2),
            "climate": (setpoint, 5, 30, 0.5, 0),
            "colour-temperature": ("color_temp", 153, 500, 1, 3),
            "thermometer": (degrees, -40, 80, 0.1, 0),
            "number": (own, 0, 100, 1, 0)}
        prop, low, high, step, tolerance = given[word]
        if maker != PLAIN:
            prop = table.text("property", prop, not prop)
        low = table.number("low", low, -1e6, 1e6)
        high = table.number("high", high, -1e6, 1e6)
        step = table.number("step", step, 0.001, 1e6)
        tolerance = table.number("tolerance", tolerance, 0, 1e6)
        if not low < high or (high - low) / step > 1e9 \
                or abs((high - low) / step - round((high - low) / step)) > 1e-6:
            self.mistakes.add(table.node.line, f"{table.what}: from {low:g} to {high:g} there are "
                                               f"no whole steps of {step:g}")
            return None
        is_sensor = word == "thermometer" or (word == "number" and table.flag("sensor"))
        words = {"open": high, "shut": low, "closed": low} if word == "blinds" else {}
        return kinds.Steps(prop, low, high, step, tolerance, words, is_sensor,
                           40.0 if word == "blinds" else None)

    def choice(self, table: Table, maker: str) -> Kind | None:
        is_entity = maker in (ASSISTANT, PLAIN)
        prop = "value" if maker == PLAIN else \
            table.text("property", "state" if is_entity else "", not is_entity)
        is_sensor = table.flag("sensor")
        node = table.get("values", True)
        if node is None:
            return None
        rows = Table(node, f"`values` of {table.what}", self.mistakes)
        words = {"true": True, "false": False}
        states: dict[str, list[object]] = {}
        for name, row in rows.rows.items():
            self.name(name, node.keys[name], "value")
            if row.raw is None:
                self.mistakes.add(row.line, f"`{name}` is to be a word, and is {row.what}")
                continue
            number = row.number
            plain: object = row.raw if row.is_quoted or is_entity else words.get(row.raw, row.raw)
            if number is not None and not is_entity:
                plain = int(number) if number == int(number) else number
            states[name] = [plain]
        return kinds.Named(prop, states, None, is_sensor) if self.are_states(states, node) else None

    def palette(self, table: Table) -> Kind | None:
        node = table.get("values")
        if node is None:
            return kinds.Palette(kinds.COLOURS)
        rows = Table(node, f"`values` of {table.what}", self.mistakes)
        points: dict[str, tuple[float, float]] = {}
        for name, row in rows.rows.items():
            self.name(name, node.keys[name], "value")
            point = [each.number for each in row.items or []]
            if len(point) != 2 or any(each is None or not 0 <= each <= 1 for each in point):
                self.mistakes.add(row.line, f"`{name}` is to be a point of colour as [0.46, 0.41]")
                continue
            points[name] = (point[0] or 0.0, point[1] or 0.0)
        return kinds.Palette(points) if self.are_states(points, node) else None

    def are_states(self, states: Mapping[str, object], node: Node) -> bool:
        if not 2 <= len(states) <= MOST_STATES:
            self.mistakes.add(node.line, f"there are {len(states)} values, and have to be "
                                         f"2 to {MOST_STATES}")
            return False
        return True

    # -- Routines

    def read_routines(self, node: Node | None, place: tuple[float, float] | None
                      ) -> tuple[list[Routine], list[str]]:
        order = list(self.devices)
        routines: list[Routine] = []
        if node is None:
            return routines, order
        table = Table(node, "`routines`", self.mistakes)
        if len(table.rows) > MOST_ROUTINES:
            self.mistakes.add(node.line, f"there are {len(table.rows)} routines, and may be "
                                         f"{MOST_ROUTINES}")
        if node.table is not None and not table.rows:
            self.mistakes.add(node.line, "there is no routine")
        for name, row in table.rows.items():
            self.name(name, node.keys[name], "routine")
            own = Table(row, f"routine `{shown(name)}`", self.mistakes)
            label, fresh = own.text("label", name), own.seconds("fresh", 600.0)
            commands = self.commands(own, order)
            triggers = self.triggers(own, order, list(table.rows), place)
            own.end()
            routines.append(Routine(name, label, tuple(commands), tuple(triggers), fresh or 600.0))
        return routines, order

    def commands(self, own: Table, order: list[str]) -> list[Command]:
        node = own.get("do", True)
        found: list[Command] = []
        if node is None:
            return found
        if not node.items or len(node.items) > MOST_COMMANDS:
            own.wrong(node, "do", f"a list of 1 to {MOST_COMMANDS} commands")
            return found
        for step, item in enumerate(node.items, 1):
            found += self.command(item, order, step)
        if len(found) > MOST_COMMANDS:
            own.wrong(node, "do", f"at most {MOST_COMMANDS} commands, counting each device of a "
                                  "group, and each toggle three times or more")
        return found

    def command(self, item: Node, order: list[str], step: int) -> list[Command]:
        """What a line of `do` is for the core; nothing where it is wrong."""
        table = Table(item, "a command", self.mistakes)
        if item.table is None:
            return []
        jobs = [job for job in DO if table.has(job)]
        if len(jobs) != 1:
            for key in (*DO, "to", "optional"):
                table.get(key)
            self.mistakes.add(item.line, "a command has one of `set: DEVICE`, `check: DEVICE` and "
                                         "`toggle: DEVICE`")
            table.end()
            return []
        name = table.text(jobs[0])
        devices = self.meant(table, jobs[0], name)
        values = self.values(table, devices, jobs[0] != "toggle")
        is_must = not table.flag("optional")
        table.end()
        for device in devices if jobs[0] != "check" else ():
            if device.kind.is_sensor:
                self.mistakes.add(item.line, f"`{device.name}` only tells, and is never set")
        at = [order.index(device.name) for device in devices]
        if jobs[0] == "toggle":
            return self.toggle(item, devices, at, values, is_must, step)
        return [Command(number, value or 0, Job(jobs[0]), is_must, step)
                for number, value in zip(at, values)]

    def toggle(self, item: Node, devices: list[Device], at: list[int], values: list[int | None],
               is_must: bool, step: int) -> list[Command]:
        """The first device is asked where it stands; where it is at rest all go to the other value,
        and else to rest. A guard can only ask for less, or for one value: so a device with more
        than two values is brought to rest first, and then to the other value."""
        found = []
        for number, device, value in zip(at, devices, values):
            both = device.kind.toggled()
            if both is None:
                self.mistakes.add(item.line, f"`{device.name}` has no two values to toggle between")
                return []
            to = both[0] if value is None else value
            if to < both[1]:
                self.mistakes.add(item.line, f"a toggle takes `{device.name}` from "
                                             f"{device.kind.word(device.kind.low)} to another "
                                             "value, and back")
            found.append((number, device.kind.low, to))
        if not found:
            return []
        first = devices[0].kind
        bound = (first.toggled() or (1, 1))[1]
        rests = ("is", 1) if first.high == 1 else None
        commands = [Command(found[0][0], 0, Job.LOAD, is_must, step)]
        for number, low, to in found:
            commands.append(Command(number, low, Job.SET, is_must, step, rests))
            commands.append(Command(number, to, Job.SET, is_must, step, ("below", bound)))
        return commands

    def read_groups(self, node: Node | None) -> None:
        if node is None:
            return
        table = Table(node, "`groups`", self.mistakes)
        for name, row in table.rows.items():
            self.name(name, node.keys[name], "group")
            if name in self.devices:
                self.mistakes.add(node.keys[name], f"`{name}` is the name of a device already")
            if not row.items:
                self.mistakes.add(row.line, f"`{name}` is to be a list of devices, and is "
                                            f"{shown(row.what)}")
            names = [each.raw or "" for each in row.items or []]
            for at, each in enumerate(names):
                if each not in self.devices:
                    self.mistakes.unknown(row.line, "device", each, self.devices)
                elif each in names[:at]:
                    self.mistakes.add(row.line, f"`{each}` is in the group `{name}` twice")
            self.groups[name] = names

    def meant(self, table: Table, key: str, name: str) -> list[Device]:
        """The devices of a name, which may be that of a group."""
        names = self.groups.get(name, [name])
        if name and name not in self.devices and name not in self.groups:
            self.mistakes.unknown(table.rows[key].line, "device", name,
                                  [*self.devices, *self.groups])
        found = (self.devices.get(each) for each in names)
        return [device for device in found if device is not None]

    def known(self, table: Table, key: str, name: str) -> Device | None:
        if name in self.groups:
            self.mistakes.add(table.rows[key].line, f"`{name}` is a group, and one device is "
                                                    "wanted")
        elif name and name not in self.devices:
            self.mistakes.unknown(table.rows[key].line, "device", name, self.devices)
        return self.devices.get(name)

    def values(self, table: Table, devices: list[Device], is_wanted: bool) -> list[int | None]:
        """The value of `to` for each device."""
        if not devices:
            table.get("to", is_wanted)
        return [self.value(table, "to", device, is_wanted) for device in devices]

    def value(self, table: Table, key: str, device: Device | None, is_wanted: bool = True
              ) -> int | None:
        node = table.get(key, is_wanted)
        if node is None or device is None:
            return None
        try:
            return device.kind.of_word(node.raw or "")
        except BadWord as bad:
            self.mistakes.add(node.line, f"`{device.name}` has no value {shown(node.what)}: "
                                         f"it has {bad}")
            return None

    # -- Triggers

    def triggers(self, own: Table, order: list[str], routines: list[str],
                 place: tuple[float, float] | None) -> list[Trigger]:
        node = own.get("when")
        if node is None:
            return []
        if node.items is None:
            own.wrong(node, "when", "a list of triggers")
            return []
        found = [self.trigger(item, order, routines, place) for item in node.items]
        return [each for each in found if each is not None]

    def trigger(self, item: Node, order: list[str], routines: list[str],
                place: tuple[float, float] | None) -> Trigger | None:
        table = Table(item, "a trigger", self.mistakes)
        if item.table is None:
            return None
        forms = {"topic": self.by_topic, "entity": self.by_entity, "cron": self.by_cron,
                 "sun": self.by_sun, "device": self.by_device, "routine": self.by_routine}
        named = [form for form in forms if table.has(form)]
        if len(named) != 1:
            self.mistakes.add(item.line, f"a trigger has one of {', '.join(forms)}")
            return None
        if named[0] == "sun" and place is None:
            self.mistakes.add(item.line, "sunrise and sunset want `place: {latitude: .., "
                                         "longitude: ..}`")
        self.order, self.names = order, routines
        found = forms[named[0]](table)
        table.end()
        return found

    def by_topic(self, table: Table) -> Trigger:
        topic = self.topic(table, "topic", "")
        if not self.has_broker:
            self.mistakes.add(table.node.line, "messages come by MQTT, and `broker` is off")
        payload, prop = table.text("payload"), table.text("property")
        return TopicTrigger(topic, payload or None, prop or None)

    def by_entity(self, table: Table) -> Trigger:
        entity = table.text("entity")
        if entity and not ENTITY.fullmatch(entity):
            table.wrong(table.rows["entity"], "entity", "an entity as input_button.night")
        if not self.has_assistant:
            self.mistakes.add(table.node.line, "an entity wants `home-assistant: {url: .., "
                                               "token_file: ..}` in the file")
        return EntityTrigger(entity, table.text("to"))

    def by_cron(self, table: Table) -> Trigger | None:
        cron = table.text("cron")
        if cron and (len(cron.split()) != 5 or not croniter.is_valid(cron)):
            table.wrong(table.rows["cron"], "cron", "a time of five fields as `30 6 * * 1-5`")
        return CronTrigger(cron)

    def by_sun(self, table: Table) -> Trigger | None:
        sun = table.text("sun")
        if sun and sun not in ("sunrise", "sunset"):
            table.wrong(table.rows["sun"], "sun", "sunrise or sunset")
        node = table.get("offset")
        offset = seconds_signed(node.raw or "") if node is not None else 0.0
        if node is not None and (offset is None or abs(offset) > 6 * 3600):
            table.wrong(node, "offset", "a time as `-30m`, at most six hours")
        return SunTrigger(sun == "sunrise", offset or 0.0)

    def by_device(self, table: Table) -> Trigger | None:
        device = self.known(table, "device", table.text("device"))
        after = table.seconds("after", None, 7 * 86400)
        hows = [how for how in ("to", "above", "below") if table.has(how)]
        for how in ("to", "above", "below"):
            if how not in hows:
                table.get(how)
        if len(hows) != 1:
            self.mistakes.add(table.node.line, "a trigger of a device has one of `to`, `above` and "
                                               "`below`")
            return None
        value = self.value(table, hows[0], device)
        if device is None:
            return None
        if hows[0] != "to" and device.kind.states:
            self.mistakes.add(table.node.line, f"`{device.name}` has named values: it comes `to` "
                                               "one, and is never above or below it")
        return DeviceTrigger(self.order.index(device.name), hows[0], value or 0, after)

    def by_routine(self, table: Table) -> Trigger | None:
        name = table.text("routine")
        if name and name not in self.names:
            self.mistakes.unknown(table.rows["routine"].line, "routine", name, self.names)
        if not table.has("after"):
            self.mistakes.add(table.node.line, "a trigger by a routine has `after`, a time")
        return RoutineTrigger(name, table.seconds("after", 1.0, 7 * 86400) or 1.0)


def seconds_signed(text: str) -> float | None:
    """The seconds of a time that may be negative."""
    text = text.strip()
    found = seconds_of(text.lstrip("+-"))
    return -found if found is not None and text.startswith("-") else found
