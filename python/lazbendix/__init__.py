"""The proved core of a smart-home hub, for Python.

A `Hub` is a home. Open a window on it, take the runs of the window step by step, make the device
calls that the steps ask for, however late and in which order, and give the answers. There is no
input, no output, no clock and no thread inside.

    with Hub(script) as hub:
        hub.window(0)
        while (left := hub.left()) is not None:
            for run in range(1, hub.run_count(0) + 1):
                turn = hub.take(run, now)
                if isinstance(turn, Go):
                    hub.give(turn.device, turn.ticket, call(turn), now)
        hub.close_window()
        print(hub.record())
"""
import importlib
from typing import TYPE_CHECKING

from lazbendix.told import (
    Answer,
    CallRefused,
    Cause,
    Counts,
    Dead,
    Entry,
    EntryKind,
    Fault,
    Found,
    Given,
    Go,
    Item,
    ItemKind,
    Left,
    Model,
    Moved,
    NoRun,
    Over,
    Refused,
    Scheduler,
    ScriptRefused,
    Stand,
    Status,
    Task,
    Turn,
    Waits,
    Why,
    Worked,
)

if TYPE_CHECKING:
    from lazbendix.call_log import CallLog, LogFault, LogRefused
    from lazbendix.hubs import Hub, library_version
    from lazbendix.logged_hubs import Closed, Ended, LetOut, LoggedHub, Report, Stood, Triggered

# What wants the library's shared object, or a system's locks: it is loaded where it is asked for.
LATER = dict.fromkeys(("Hub", "library_version"), "hubs")
LATER |= dict.fromkeys(("CallLog", "LogFault", "LogRefused"), "call_log")
LATER |= dict.fromkeys(
    ("Closed", "Ended", "LetOut", "LoggedHub", "Report", "Stood", "Triggered"), "logged_hubs"
)


def __getattr__(name: str) -> object:
    if name in LATER:
        return getattr(importlib.import_module(f"lazbendix.{LATER[name]}"), name)
    raise AttributeError(f"module 'lazbendix' has no attribute {name!r}")


__all__ = [
    "Answer",
    "CallLog",
    "CallRefused",
    "Cause",
    "Closed",
    "Counts",
    "Dead",
    "Ended",
    "Entry",
    "EntryKind",
    "Fault",
    "Found",
    "Given",
    "Go",
    "Hub",
    "Item",
    "ItemKind",
    "Left",
    "LetOut",
    "LogFault",
    "LogRefused",
    "LoggedHub",
    "Model",
    "Moved",
    "NoRun",
    "Over",
    "Refused",
    "Report",
    "Scheduler",
    "ScriptRefused",
    "Stand",
    "Status",
    "Stood",
    "Task",
    "Triggered",
    "Turn",
    "Waits",
    "Why",
    "Worked",
    "library_version",
]
