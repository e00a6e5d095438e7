"""The one place through which every call of the library goes. Under it is the log of calls: `sync`
is called before a device is driven, and before anything is reported."""
from __future__ import annotations

import json
from typing import Any

from lazbendix import Answer, Entry, Go, Hub, Item, Left, LoggedHub, Refused, Stand, Status, Turn

from lazbendix_hub.again import Core


class Calls:
    """The calls of a hub, by name. `can_join` says whether a run may join an open window, which the
    library itself is asked."""

    def __init__(self, core: Core) -> None:
        self.core = core
        self.hub: LoggedHub = core.hub
        self.can_join = _can_join()
        self.made = 0

    def _call(self, name: str, *words: Any) -> Any:
        told = getattr(self.hub, name)(*words)
        self.made += 1
        return told

    # -- What changes something

    def begin_window(self, at: str, probes: int) -> int:
        """Appends a window without runs; its number."""
        return int(self._call("begin_window", at, probes))

    def add_run(self, routine: int) -> int | None:
        """A run of the routine in the window that was begun, or in the open one: its number; none
        where the window takes no more, or none while it is open."""
        try:
            return int(self._call("add_run", routine))
        except Refused as refused:
            if refused.status in (Status.NO_WINDOW, Status.TOO_MANY):
                return None
            raise

    def window(self, number: int) -> None:
        """Opens the window."""
        self._call("window", number)

    def take(self, run: int, now: int) -> Turn:
        """The run's step at this moment."""
        turn: Turn = self._call("take", run, now)
        return turn

    def give(self, go: Go, answer: Answer, now: int) -> tuple[Entry, ...]:
        """Hands an answer in, by the number of its call. Raises `Refused`: NOT_OUT where no such
        call is out, DIFFERS where a sense found another value than the home has."""
        made: tuple[Entry, ...] = self._call("give", go.device, go.ticket, answer, now)
        return made

    def probe(self, device: int) -> Go | None:
        """A probe of the device, none where it is out or none is left."""
        try:
            go: Go = self._call("probe", device)
        except Refused as refused:
            if refused.status is Status.NO_PROBE:
                return None
            raise
        return go

    def close_window(self) -> None:
        """Closes the window."""
        self._call("close_window")

    def restand(self, device: int, value: int) -> None:
        """Tells the home, between two windows, where the device was found."""
        self._call("restand", device, value)

    def lose(self, device: int) -> None:
        """Tells the home, between two windows, that the device is down."""
        self._call("lose", device)

    # -- What only asks

    def blocked_runs(self) -> int:
        """The runs that need not be taken before another step, the run r as the bit r - 1."""
        return self.hub.blocked_runs()

    def final_items(self) -> list[Item]:
        """The items of the open window's order that stay so, whatever comes."""
        return list(self.hub.final_items())

    def left(self) -> Left | None:
        """What is left to do in the window."""
        return self.hub.left()

    def stand(self, device: int) -> Stand:
        """How the device stands between two windows."""
        return self.hub.stand(device)

    def record(self) -> str:
        """The text of the window closed last, with its trace."""
        return self.hub.record(trace=True)

    def head(self) -> str:
        """The lines above the windows of a record."""
        return self.hub.head()

    def sync(self) -> None:
        """What was decided is on the disk when this returns."""
        self.hub.let_out()

    def tidy(self) -> None:
        """Begins the log anew where it has become long; no window is open."""
        if self.core.is_long():
            self.begin_anew()

    def begin_anew(self) -> None:
        """Begins the log anew, where it has a window; none is open. Windows are counted from 0."""
        if self.hub.last_time is not None:
            self.hub.let_out()
            self.hub.begin_anew()

    def entries(self) -> list[Entry]:
        """The entries of the open window, or of the one closed last."""
        return list(self.hub.entries())

    def close(self) -> None:
        """Frees the home, and lets go of its log."""
        self.core.close()


def _can_join() -> bool:
    """Whether the library takes a run on an open window: a small home is asked."""
    command = {"on": "a", "do": "set", "to": 1, "must": True}
    script = {"safehome": 1, "devices": [{"name": "a", "low": 0, "high": 1, "start": 0}],
              "routines": [{"name": "r", "commands": [command]}], "windows": []}
    with Hub(json.dumps(script)) as hub:
        hub.window(hub.begin_window("2020-01-01T00:00:00"))
        try:
            hub.add_run(0)
        except Refused:
            return False
        return True
