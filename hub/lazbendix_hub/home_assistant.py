"""Home Assistant by its WebSocket API, so that each entity of it is a device.

A command is a call of a service. It has worked when the service has answered, and the entity's
state, as it is then or becomes after it, shows the value. Home Assistant reports no state that is
the same as before, so of a device that stood there already its answer is all there is to hear. For
an integration that takes a command for a state (`assumed_state`) it is no more than a promise.
"""
from __future__ import annotations

import asyncio
import json
import logging
from typing import Any, Callable, Mapping

import aiohttp

from lazbendix_hub.broker import Link
from lazbendix_hub.drivers import DeviceDriver
from lazbendix_hub.home import Device
from lazbendix_hub.kinds import Payload, number_of, real

LOG = logging.getLogger("lazbendix.home_assistant")
LARGEST = 64 * 1024 * 1024  # bytes of a message: the states of a large home come in one
HEARTBEAT = 10.0  # s between two looks whether the connection lives
BACK_OFF = (1.0, 60.0)  # s before it is tried again, the first time and the longest
ABSENT = ("unavailable", None)

State = Mapping[str, Any]
Heard = Callable[[State, bool], None]  # a state, and whether it has just come about
Answered = Callable[[Any], None]


class BadToken(Exception):
    """Home Assistant does not take the token; its text says why."""


class HomeAssistant:
    """The connection. `link` says whether Home Assistant is there, has begun all of its parts, and
    has sent the states of all entities."""

    def __init__(self, url: str, token: str) -> None:
        self.url, self.token, self.link = socket_url(url), token, Link()
        self.heard: dict[str, list[Heard]] = {}
        self.called = self.got = self.failed = 0
        self.has_states = self.is_running = False
        self._number = 0
        self._answers: dict[int, Answered] = {}
        self._out: asyncio.Queue[str] = asyncio.Queue()
        self._task: asyncio.Task[None] | None = None

    def begin(self) -> None:
        """Begins to connect, and goes on until it is closed."""
        self._task = asyncio.get_running_loop().create_task(self._live())

    async def close(self) -> None:
        """Ends the connection."""
        if self._task is not None:
            self._task.cancel()
            await asyncio.gather(self._task, return_exceptions=True)

    def hear(self, entity: str, heard: Heard) -> None:
        """Has the states of an entity heard."""
        self.heard.setdefault(entity, []).append(heard)
        if self.has_states:  # all that hear from now on are shown the states in one go
            self.has_states = False
            self._send({"type": "get_states"}, self._states)

    def forget(self) -> None:
        """Nobody hears any more."""
        self.heard = {}

    def call(self, service: tuple[str, str], entity: str, data: Payload,
             answered: Callable[[bool], None]) -> None:
        """Calls a service for an entity. `answered` hears whether it was done, and nothing where
        the connection is lost before."""
        self.called += 1

        def told(message: Any) -> None:
            if not message.get("success"):
                error = message.get("error")
                LOG.warning("%s.%s of %s failed: %s", *service, entity,
                            error.get("message") if isinstance(error, dict) else error)
            answered(bool(message.get("success")))
        self._send({"type": "call_service", "domain": service[0], "service": service[1],
                    "service_data": data, "target": {"entity_id": entity}}, told)

    async def states(self) -> list[State]:
        """The states of all entities, as they are now."""
        found: asyncio.Future[list[State]] = asyncio.get_running_loop().create_future()

        def answered(told: Any) -> None:
            if not found.done():
                listed = told.get("result")
                found.set_result([each for each in listed if isinstance(each, dict)]
                                 if isinstance(listed, list) else [])
        self._send({"type": "get_states"}, answered)
        return await found

    # -- The connection

    async def _live(self) -> None:
        first, longest = BACK_OFF
        wait = first
        async with aiohttp.ClientSession() as session:
            while True:
                try:
                    async with session.ws_connect(self.url, heartbeat=HEARTBEAT,
                                                  max_msg_size=LARGEST) as socket:
                        await asyncio.wait_for(self._enter(socket), HEARTBEAT)
                        wait = first
                        await self._talk(socket)
                except BadToken as bad:
                    LOG.error("Home Assistant refuses the token: %s", bad)
                    wait = longest
                except (aiohttp.ClientError, asyncio.TimeoutError, OSError, ValueError, TypeError,
                        AttributeError) as error:
                    LOG.info("Home Assistant is not there: %s", error or type(error).__name__)
                finally:
                    self._lose()
                await asyncio.sleep(wait)
                wait = min(wait * 2, longest)

    async def _enter(self, socket: aiohttp.ClientWebSocketResponse) -> None:
        """The phase of authentication."""
        if (await socket.receive_json()).get("type") == "auth_required":
            await socket.send_json({"type": "auth", "access_token": self.token})
            told = await socket.receive_json()
            if told.get("type") == "auth_ok":
                return
            if told.get("type") == "auth_invalid":
                raise BadToken(str(told.get("message"))[:200])
        raise ValueError("it does not speak as Home Assistant does")

    async def _talk(self, socket: aiohttp.ClientWebSocketResponse) -> None:
        self._number, self._answers, self._out = 0, {}, asyncio.Queue()
        for event in ("state_changed", "homeassistant_started", "homeassistant_stop"):
            self._send({"type": "subscribe_events", "event_type": event})
        self._send({"type": "get_config"}, self._config)
        self._send({"type": "get_states"}, self._states)
        writing = asyncio.get_running_loop().create_task(self._write(socket))
        try:
            async for message in socket:
                if message.type is aiohttp.WSMsgType.TEXT:
                    self._hear(message.data)
        finally:
            writing.cancel()

    async def _write(self, socket: aiohttp.ClientWebSocketResponse) -> None:
        try:
            while True:
                await socket.send_str(await self._out.get())
        except (ConnectionError, RuntimeError):  # the reader hears of it too
            await socket.close()

    def _send(self, told: dict[str, Any], answered: Answered | None = None) -> None:
        self._number += 1
        if answered is not None:
            self._answers[self._number] = answered
        self._out.put_nowait(json.dumps({"id": self._number, **told}))

    def _lose(self) -> None:
        """What was asked is not answered any more: the drivers begin anew when the link is back."""
        self._answers = {}
        self.has_states = self.is_running = False
        self.link.become(False)

    # -- What it says. Nothing may be raised here, whatever comes.

    def _hear(self, text: str) -> None:
        self.got += 1
        try:
            told = json.loads(text)
            for each in told if isinstance(told, list) else [told]:
                self._message(each)
        except Exception as error:
            self.failed += 1
            LOG.error("a message of Home Assistant was not understood: %s", type(error).__name__)

    def _message(self, told: Any) -> None:
        if told.get("type") == "result":
            answered = self._answers.pop(told.get("id"), None)
            if answered is not None:
                answered(told)
        elif told.get("type") == "event":
            event = told["event"]
            if event.get("event_type") == "homeassistant_started":
                self.is_running = True
                self._look()
            elif event.get("event_type") == "homeassistant_stop":
                self.is_running = False
                self._look()
            elif event.get("event_type") == "state_changed":
                data = event["data"]
                self._state(data["entity_id"], data.get("new_state") or {}, True)

    def _config(self, told: Any) -> None:
        self.is_running = told["result"].get("state", "RUNNING") == "RUNNING"
        self._look()

    def _states(self, told: Any) -> None:
        states = {each["entity_id"]: each for each in told["result"]}
        for entity in list(self.heard):
            if entity not in states:
                LOG.error("Home Assistant has no entity %s", entity)
            self._state(entity, states.get(entity, {}), False)
        self.has_states = True
        self._look()

    def _state(self, entity: str, state: State, is_now: bool) -> None:
        for heard in list(self.heard.get(entity, ())):
            heard(state, is_now)

    def _look(self) -> None:
        is_up = self.has_states and self.is_running
        if is_up != self.link.is_up:
            LOG.info("Home Assistant is %s", "there" if is_up else "away")
        self.link.become(is_up)


class EntityDriver(DeviceDriver):
    """An entity of Home Assistant."""

    is_ordered = False  # a service that was called may still be under way when the hub is gone

    def __init__(self, device: Device, there: HomeAssistant) -> None:
        super().__init__(device, there.link)
        self.there, self.is_assumed = there, False
        self.domain = device.topic.partition(".")[0]
        there.hear(device.topic, self._state)

    def _state(self, state: State, is_now: bool) -> None:
        word, given = state.get("state"), state.get("attributes")
        self.go_away(word in ABSENT)
        attributes = given if isinstance(given, dict) else {}
        if attributes.get("assumed_state") is True and not self.is_assumed:
            self.is_assumed = True
            LOG.warning("%s has assumed states: it shows what it was told, whether it did it or "
                        "not", self.device.topic)
        if not self.is_away:
            self.told(told_of(self.domain, word, attributes), False)

    def ask(self) -> None:
        if self.kind.is_sensor and self.device.is_sleepy:
            self.repeat()
        elif not self.device.is_sleepy:
            self.there.call(("homeassistant", "update_entity"), self.device.topic, {}, self._looked)

    def send(self, payload: Payload) -> None:
        service, data = service_of(self.domain, payload)
        self.there.call((self.domain, service), self.device.topic, data, self._answered)

    def is_old(self) -> bool:
        """Never: Home Assistant says itself when it is unavailable."""
        return False

    def _answered(self, is_done: bool) -> None:
        for _, future in self.waiting:
            if not is_done and not future.done():
                future.set_result(False)
        self._looked(is_done)

    def _looked(self, is_done: bool) -> None:
        for is_it, future in self.waiting:
            if is_done and not future.done() and self.value is not None and is_it(self.value):
                future.set_result(True)
        if is_done and self.value is not None and not self.is_away:
            for shown in self.on_shown:
                shown()


def socket_url(url: str) -> str:
    """The address of the WebSocket API of a Home Assistant at this URL."""
    scheme, _, rest = url.rstrip("/").partition("://")
    return f"{'wss' if scheme in ('https', 'wss') else 'ws'}://{rest}/api/websocket"


def told_of(domain: str, word: Any, attributes: Mapping[str, Any]) -> dict[str, object]:
    """What an entity shows, as the kinds of devices read it: its attributes, its state, and
    `number` where that is one. A light has its switch as `power`, its white in mireds, and its
    colour as a table."""
    told = {**attributes, "state": word}
    number = number_of(word) if isinstance(word, str) else None
    if number is not None:
        told["number"] = number
    if domain == "light":
        told["power"] = word.upper() if isinstance(word, str) else word
        kelvin, xy = real(attributes.get("color_temp_kelvin")), attributes.get("xy_color")
        if kelvin:
            told["color_temp"] = 1e6 / kelvin
        if isinstance(xy, (list, tuple)) and len(xy) == 2:
            told["color"] = {"x": xy[0], "y": xy[1]}
    return told


def service_of(domain: str, payload: Payload) -> tuple[str, Payload]:
    """The service of the domain that drives an entity there, and its data."""
    prop, value = next(iter(payload.items()))
    match domain:
        case "light":
            return light_service(payload)
        case "cover" if prop == "current_position":
            return "set_cover_position", {"position": value}
        case "cover" | "valve":
            return f"{'open' if value == 'open' else 'close'}_{domain}", {}
        case "lock":
            return ("lock" if value == "locked" else "unlock"), {}
        case "climate" if prop != "state":
            return "set_temperature", {"temperature": value}
        case "climate":
            return "set_hvac_mode", {"hvac_mode": value}
        case "fan" if prop == "percentage":
            return "set_percentage", {"percentage": value}
        case "number" | "input_number":
            return "set_value", {"value": value}
        case "select" | "input_select":
            return "select_option", {"option": value}
    return ("turn_on" if value in ("on", "open") else "turn_off"), {}


def light_service(payload: Payload) -> tuple[str, Payload]:
    """The service that drives a light, and its data."""
    if payload.get("power", payload.get("state")) in ("OFF", "off"):
        return "turn_off", {}
    data: Payload = {}
    if "brightness" in payload:
        data["brightness"] = payload["brightness"]
    mireds, colour = real(payload.get("color_temp")), payload.get("color")
    if mireds:
        data["color_temp_kelvin"] = round(1e6 / mireds)
    if isinstance(colour, dict):
        data["xy_color"] = [colour["x"], colour["y"]]
    return "turn_on", data
