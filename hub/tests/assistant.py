"""A server that speaks as the documents of Home Assistant's WebSocket API say, over entities of its
own: authentication, commands whose numbers have to grow, results, errors and events."""
from __future__ import annotations

import asyncio
import datetime
import json
import uuid
from typing import Any

from aiohttp import WSMsgType, web

TOKEN = "a-long-lived-access-token"
Attributes = dict[str, Any]
# Of each service what its data may have, and has to have.
SERVICES: dict[str, tuple[set[str], set[str]]] = {
    "light.turn_on": ({"brightness", "color_temp_kelvin", "xy_color"}, set()),
    "light.turn_off": (set(), set()),
    "switch.turn_on": (set(), set()), "switch.turn_off": (set(), set()),
    "input_boolean.turn_on": (set(), set()), "input_boolean.turn_off": (set(), set()),
    "fan.turn_on": (set(), set()), "fan.turn_off": (set(), set()),
    "fan.set_percentage": ({"percentage"}, {"percentage"}),
    "lock.lock": (set(), set()), "lock.unlock": (set(), set()),
    "valve.open_valve": (set(), set()), "valve.close_valve": (set(), set()),
    "cover.open_cover": (set(), set()), "cover.close_cover": (set(), set()),
    "cover.set_cover_position": ({"position"}, {"position"}),
    "climate.set_temperature": ({"temperature"}, {"temperature"}),
    "climate.set_hvac_mode": ({"hvac_mode"}, {"hvac_mode"}),
    "number.set_value": ({"value"}, {"value"}),
    "input_number.set_value": ({"value"}, {"value"}),
    "select.select_option": ({"option"}, {"option"}),
    "input_select.select_option": ({"option"}, {"option"}),
    "homeassistant.update_entity": (set(), set())}


class Refusal(Exception):
    """A command is refused: its code, and the message."""


class Assistant:
    """The server. `failing` entities answer a service with an error, `silent` ones say that it was
    done and do nothing, `late` is how long a service takes, in s."""

    def __init__(self, port: int, states: dict[str, tuple[str, Attributes]]) -> None:
        self.port, self.late = port, 0.01
        self.states = {entity: self._made(entity, *of) for entity, of in states.items()}
        self.failing, self.silent = set[str](), set[str]()
        self.mode = "RUNNING"
        self.calls: list[tuple[str, str, Attributes]] = []
        self.sockets: dict[web.WebSocketResponse, dict[int, str]] = {}
        self.tasks: set[asyncio.Task[None]] = set()
        self.runner: web.AppRunner | None = None
        self.refused = 0

    async def start(self) -> None:
        """Begins to serve."""
        app = web.Application()
        app.add_routes([web.get("/api/websocket", self._serve)])
        self.runner = web.AppRunner(app)
        await self.runner.setup()
        await web.TCPSite(self.runner, "127.0.0.1", self.port, shutdown_timeout=0.1,
                          reuse_address=True).start()

    async def stop(self) -> None:
        """Ends it, and each connection."""
        for socket in list(self.sockets):
            await socket.close()
        if self.runner is not None:
            await self.runner.cleanup()

    # -- Entities

    @staticmethod
    def _made(entity: str, state: str, attributes: Attributes) -> Attributes:
        now = datetime.datetime.now(datetime.timezone.utc).isoformat()
        return {"entity_id": entity, "state": state, "attributes": attributes, "last_changed": now,
                "last_updated": now, "last_reported": now,
                "context": {"id": uuid.uuid4().hex, "parent_id": None, "user_id": None}}

    async def put(self, entity: str, state: str | None = None, **attributes: Any) -> None:
        """The entity comes to this state; an event is sent where it is another one than before."""
        old = self.states[entity]
        new = self._made(entity, old["state"] if state is None else state,
                         {**old["attributes"], **attributes})
        if (new["state"], new["attributes"]) == (old["state"], old["attributes"]):
            return
        self.states[entity] = new
        await self.fire("state_changed", {"entity_id": entity, "old_state": old,
                                          "new_state": new})

    async def fire(self, kind: str, data: Attributes) -> None:
        """Sends an event to all who have subscribed to it."""
        now = datetime.datetime.now(datetime.timezone.utc).isoformat()
        event = {"event_type": kind, "data": data, "origin": "LOCAL", "time_fired": now,
                 "context": {"id": uuid.uuid4().hex, "parent_id": None, "user_id": None}}
        for socket, subscribed in list(self.sockets.items()):
            for number, of in subscribed.items():
                if of == kind and not socket.closed:
                    await socket.send_json({"id": number, "type": "event", "event": event})

    # -- The protocol

    async def _serve(self, request: web.Request) -> web.WebSocketResponse:
        socket = web.WebSocketResponse()
        await socket.prepare(request)
        await socket.send_json({"type": "auth_required", "ha_version": "2026.11.2"})
        told = await socket.receive_json()
        if told != {"type": "auth", "access_token": TOKEN}:
            self.refused += 1
            await socket.send_json({"type": "auth_invalid",
                                    "message": "Invalid access token or password"})
            await socket.close()
            return socket
        await socket.send_json({"type": "auth_ok", "ha_version": "2026.11.2"})
        self.sockets[socket] = {}
        last = 0
        try:
            async for message in socket:
                if message.type is not WSMsgType.TEXT:
                    continue
                told = json.loads(message.data)
                is_new, last = told["id"] > last, max(last, told["id"])
                task = asyncio.create_task(self._answer(socket, told, is_new))
                self.tasks.add(task)
                task.add_done_callback(self.tasks.discard)
        finally:
            self.sockets.pop(socket, None)
        return socket

    async def _answer(self, socket: web.WebSocketResponse, told: Attributes, is_new: bool) -> None:
        answer: Attributes = {"id": told["id"], "type": "result", "success": True, "result": None}
        try:
            if not is_new:
                raise Refusal("id_reuse", "Identifier values have to increase.")
            answer["result"] = await self._command(socket, told)
        except Refusal as refusal:
            code, text = refusal.args
            answer = {"id": told["id"], "type": "result", "success": False,
                      "error": {"code": code, "message": text}}
        if not socket.closed:
            await socket.send_json(answer)

    async def _command(self, socket: web.WebSocketResponse, told: Attributes) -> Any:
        keys = set(told) - {"id", "type"}
        match told["type"]:
            case "subscribe_events" if keys == {"event_type"}:
                self.sockets[socket][told["id"]] = told["event_type"]
                return None
            case "get_states" if not keys:
                return list(self.states.values())
            case "get_config" if not keys:
                return {"state": self.mode, "version": "2026.11.2"}
            case "call_service" if {"domain", "service"} <= keys <= {"domain", "service",
                                                                     "service_data", "target"}:
                return await self._call(told)
            case "subscribe_events" | "get_states" | "get_config" | "call_service":
                raise Refusal("invalid_format", "extra keys not allowed, or a key is missing")
        raise Refusal("unknown_command", "Unknown command.")

    async def _call(self, told: Attributes) -> Any:
        name = f"{told['domain']}.{told['service']}"
        entity, data = told["target"]["entity_id"], told.get("service_data", {})
        if name not in SERVICES:
            raise Refusal("not_found", f"Service {name} not found.")
        known, wanted = SERVICES[name]
        if not wanted <= set(data) <= known:
            raise Refusal("invalid_format", f"extra keys not allowed, or one is missing: {data}")
        self.calls.append((name, entity, data))
        await asyncio.sleep(self.late)
        if entity in self.failing:
            raise Refusal("home_assistant_error", "The device did not respond")
        if entity in self.states and entity not in self.silent:
            state = self.states[entity]["state"]
            if state != "unavailable":
                await self._do(name, entity, data)
        return {"context": {"id": uuid.uuid4().hex, "parent_id": None, "user_id": None},
                "response": None}

    async def _do(self, name: str, entity: str, data: Attributes) -> None:
        service = name.partition(".")[2]
        words = {"turn_on": "on", "turn_off": "off", "lock": "locked", "unlock": "unlocked",
                 "open_valve": "open", "close_valve": "closed", "open_cover": "open",
                 "close_cover": "closed"}
        if name == "light.turn_off":
            await self.put(entity, "off", brightness=None, xy_color=None, color_temp_kelvin=None)
        elif service in words:
            await self.put(entity, words[service], **data)
        elif service == "set_cover_position":
            await self.put(entity, "opening")
            await asyncio.sleep(0.1)
            position = data["position"]
            await self.put(entity, "open" if position else "closed", current_position=position)
        elif service == "set_temperature" or service == "set_percentage":
            await self.put(entity, **data)
        elif service != "update_entity":
            value, = data.values()
            await self.put(entity, str(value))
