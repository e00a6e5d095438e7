"""The broker: paho in a thread of its own, its messages in the loop of asyncio.

Small packets over TCP wait for each other by default (Nagle), which costs 90 ms a command: the
client turns that off for its own, and the broker has `set_tcp_nodelay true` for its.
"""
from __future__ import annotations

import asyncio
import logging
import socket
from collections import deque
from typing import Any, Callable

import paho.mqtt.client as mqtt

LOG = logging.getLogger("lazbendix.mqtt")
LARGEST = 256 * 1024  # bytes of a message; a longer one is passed over
MOST_HELD = 20_000  # messages that wait for the loop; more are dropped

Heard = Callable[[str, bytes, bool], None]


class Broker:
    """The connection. `is_up` says whether the broker is there; subscriptions are made anew at each
    connection. The client has always the same name: a hub that starts again takes the place of its
    former life, so the broker has dropped what was left of that one."""

    def __init__(self, name: str, will: str) -> None:
        self.loop = asyncio.get_running_loop()
        self.is_up = False
        self.up = asyncio.Event()
        self.on_change: list[Callable[[bool], None]] = []
        self.heard: dict[str, list[Heard]] = {}
        self.wild: tuple[str, ...] = ()  # filters with wildcards, whose messages `on_other` hears
        self.will, self.sent, self.got, self.dropped, self.failed = will, 0, 0, 0, 0
        self.on_other: Heard = lambda topic, payload, is_retained: None  # topics of wildcards
        self._held: deque[tuple[str, bytes, bool]] = deque()
        self._is_called = False
        self.client = _client(name)
        if will:
            self.client.will_set(will, "offline", 1, True)
        self.client.on_connect = self._connected
        self.client.on_disconnect = self._lost
        self.client.on_message = self._message
        self.client.on_socket_open = _send_at_once
        self.client.reconnect_delay_set(1, 30)

    def connect(self, host: str, port: int, user: str = "", password: str = "", ca: str = "",
                keepalive: int = 10) -> None:
        """Begins to connect, and goes on until it is closed."""
        if user:
            self.client.username_pw_set(user, password or None)
        if ca:
            self.client.tls_set(ca)
        self.client.connect_async(host, port, keepalive)
        self.client.loop_start()

    # In the thread of paho: nothing may be raised here, or the thread ends without a word.

    def _connected(self, client: Any, data: Any, flags: Any, code: Any, *more: Any) -> None:
        is_fine = not getattr(code, "is_failure", code != 0)
        self._to_loop(self._become, is_fine, "" if is_fine else str(code))

    def _lost(self, client: Any, data: Any, *more: Any) -> None:
        self._to_loop(self._become, False, "")

    def _to_loop(self, call: Callable[..., None], *words: Any) -> None:
        try:
            self.loop.call_soon_threadsafe(call, *words)
        except RuntimeError:  # the loop is closed
            pass

    def _message(self, client: Any, data: Any, message: Any) -> None:
        try:
            topic, payload = message.topic, message.payload
        except (UnicodeDecodeError, ValueError):  # a topic that is no text
            return
        if len(payload) > LARGEST or len(self._held) >= MOST_HELD:
            self.dropped += 1
            return
        self._held.append((topic, payload, bool(message.retain)))
        if not self._is_called:
            self._is_called = True
            self._to_loop(self._hear)

    # In the loop.

    def _become(self, is_up: bool, why: str) -> None:
        if why:
            LOG.error("the broker refuses: %s", why)
        if is_up and self.heard:
            self.client.subscribe([(topic, 0) for topic in self.heard])
        if is_up and self.wild:
            self.client.subscribe([(topic, 0) for topic in self.wild])
        if is_up and self.will:
            self.client.publish(self.will, "online", 1, True)
        if is_up == self.is_up:
            return
        self.is_up = is_up
        self.up.set() if is_up else self.up.clear()
        LOG.info("the broker is %s", "there" if is_up else "away")
        for call in list(self.on_change):
            call(is_up)

    def _hear(self) -> None:
        self._is_called = False
        while self._held:
            topic, payload, is_retained = self._held.popleft()
            self.got += 1
            for heard in list(self.heard.get(topic, (self.on_other,))):
                try:
                    heard(topic, payload, is_retained)
                except Exception:
                    self.failed += 1
                    LOG.exception("a message of %s was not understood", topic)

    def subscribe(self, topic: str, heard: Heard) -> None:
        """Has messages of the topic heard; it has no wildcards."""
        is_new = topic not in self.heard
        self.heard.setdefault(topic, []).append(heard)
        if is_new and self.is_up:
            self.client.subscribe(topic, 0)

    def forget(self) -> None:
        """Ends all subscriptions."""
        if self.heard and self.is_up:
            self.client.unsubscribe(list(self.heard))
        self.heard = {}

    def publish(self, topic: str, payload: str, is_retained: bool = False) -> None:
        """Sends a message, or drops it where the broker is away."""
        if self.is_up:
            self.sent += 1
            self.client.publish(topic, payload, 0, is_retained)

    def close(self) -> None:
        """Says farewell, and ends the thread."""
        if self.is_up and self.will:
            self.client.publish(self.will, "offline", 1, True).wait_for_publish(1)
        self.client.disconnect()
        self.client.loop_stop()
        self.is_up = False


def _client(name: str) -> Any:
    """A client of paho 1.6 or 2."""
    module: Any = mqtt
    versions = getattr(module, "CallbackAPIVersion", None)
    if versions is None:
        return module.Client(name, clean_session=True)
    return module.Client(versions.VERSION2, name, clean_session=True)


def _send_at_once(client: Any, data: Any, sock: Any) -> None:
    try:
        sock.setsockopt(socket.IPPROTO_TCP, socket.TCP_NODELAY, 1)
    except OSError:
        pass


class Link:
    """What carries the calls to a device. `count` is another number each time that it came back."""

    def __init__(self, is_up: bool = False) -> None:
        self.is_up, self.count = is_up, 0
        self.up, self.lost = asyncio.Event(), asyncio.Event()
        self.on_up: list[Callable[[], None]] = []
        (self.up if self.is_up else self.lost).set()

    def become(self, is_up: bool) -> None:
        """It is there, or away."""
        if is_up == self.is_up:
            return
        self.is_up = is_up
        if is_up:
            self.count += 1
            self.lost.clear()
            self.up.set()
        else:
            self.up.clear()
            self.lost.set()
        for call in list(self.on_up):
            call()

    def end(self) -> None:
        """Nobody hears of it any more."""
        self.on_up = []


class BrokerLink(Link):
    """The broker, and for Zigbee2MQTT its bridge."""

    def __init__(self, broker: Broker) -> None:
        super().__init__(broker.is_up)
        self.broker, self.is_bridged = broker, True
        broker.on_change.append(self._look)

    def bridge(self, topic: str) -> None:
        """The link has a bridge, which reports in this topic whether it is there."""
        self.broker.subscribe(topic, self._bridged)

    def _bridged(self, topic: str, payload: bytes, is_retained: bool) -> None:
        self.is_bridged = b"offline" not in payload
        self._look(self.broker.is_up)

    def _look(self, is_up: bool) -> None:
        self.become(is_up and self.is_bridged)

    def end(self) -> None:
        super().end()
        self.broker.on_change.remove(self._look)
