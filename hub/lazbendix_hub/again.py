"""A hub that was killed goes on: its home is made again of the log of its calls, with the window
that was open, the runs of it, and the calls of devices that were under way."""
from __future__ import annotations

import json
import logging
import os
from dataclasses import dataclass
from typing import Any

from lazbendix import CallLog, LoggedHub, LogRefused, ScriptRefused
from lazbendix.call_log import good_records, read_file
from lazbendix.logged_calls import CallKind

from lazbendix_hub.home import Home
from lazbendix_hub.ledger import Accepted, Kept

LOG = logging.getLogger("lazbendix.again")
MOST_RECORDS = 10_000  # of a log; then it is begun anew at the next quiet moment


@dataclass
class Core:
    """The home in the library, and its log. `script` is the one that it was opened with."""

    hub: LoggedHub
    log: CallLog
    script: bytes

    def is_long(self) -> bool:
        """Whether the log is to be begun anew."""
        return self.log.count > MOST_RECORDS

    def close(self) -> None:
        """Frees the home, and lets go of the log."""
        self.hub.close()
        self.log.close()


@dataclass
class Window:
    """The window that a former life left: its time, its number, the trigger of each run, and what
    was told to the home between it and the window before: a device, and its value, none where it
    was lost."""

    at: str
    number: int
    triggers: dict[int, Accepted]
    above: list[tuple[int, int | None]]


class NotKnown(Exception):
    """The log has runs whose triggers the ledger does not know."""


class Place:
    """Where the log of calls and its script are, in the hub's folder."""

    def __init__(self, folder: str) -> None:
        self.calls = os.path.join(folder, "calls.log")
        self.script = os.path.join(folder, "calls.script")

    def again(self, home: Home) -> Core | None:
        """The home of the log; none where there is none, where it is of another home.yaml, or
        where it is refused."""
        try:
            with open(self.script, "rb") as file:
                script = file.read()
            if not is_same(script, home) or not os.path.exists(self.calls):
                return None
            log = CallLog(self.calls)
        except (OSError, ValueError):
            return None
        except LogRefused as refused:
            self.set_aside(refused)
            return None
        try:
            return Core(log.hub(script, other_version=True), log, script)
        except (LogRefused, ScriptRefused) as refused:
            log.close()
            self.set_aside(refused)
            return None

    def set_aside(self, why: Exception) -> None:
        """The log is not taken, and kept under another name."""
        LOG.error("the log of calls is not taken, and set aside: %s", why)
        os.replace(self.calls, self.calls + ".refused")

    def anew(self, script: bytes) -> Core:
        """A home with a log that begins."""
        for path in (self.calls, self.script):
            if os.path.exists(path):
                os.unlink(path)
        with open(self.script + ".new", "wb") as file:
            file.write(script)
            file.flush()
            os.fsync(file.fileno())
        os.replace(self.script + ".new", self.script)
        log = CallLog(self.calls)
        return Core(log.hub(script), log, script)

    def window(self, core: Core, kept: Kept) -> Window | None:
        """The last window of the log, where the ledger of the former life does not have its end;
        none where it has, or where no window was begun. Raises `NotKnown`."""
        if core.hub.begun is not None:  # the end of the log was torn off before it was opened
            core.hub.window(core.hub.begun)
        number = core.hub.opened
        is_left = number is not None or (kept.window and kept.window == core.hub.last_time)
        if not is_left or core.hub.last_time is None:
            return None
        if number is None:
            number = core.hub.counts().windows - 1
        runs = range(1, core.hub.run_count(number) + 1)
        waiting = {each.number: each for each in kept.waiting}
        triggers = {run: waiting[kept.runs[run]] for run in runs
                    if kept.runs.get(run) in waiting}
        if len(triggers) < len(runs):
            raise NotKnown(f"{len(runs) - len(triggers)} runs have no trigger")
        return Window(core.hub.last_time, number, triggers, self.above())

    def above(self) -> list[tuple[int, int | None]]:
        """What was told to the home before its last window."""
        records, _ = good_records(read_file(self.calls) or b"")
        told: list[tuple[int, int | None]] = []
        last: list[tuple[int, int | None]] = []
        for record in records:
            call = record.call
            if call.kind == CallKind.RESTAND:
                told.append((call.device, call.value))
            elif call.kind == CallKind.LOSE:
                told.append((call.device, None))
            elif call.kind == CallKind.WINDOW:
                last, told = told, []
        return last


def is_same(script: bytes, home: Home) -> bool:
    """Whether the script is of this home, but for where its devices stand at its start. Raises
    `ValueError` where it is none."""
    return bool(_without_starts(json.loads(script)) == _without_starts(json.loads(home.script({}))))


def _without_starts(script: Any) -> Any:
    return {**script, "devices": [{**each, "start": None} for each in script["devices"]]}
