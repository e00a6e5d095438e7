"""The words of the command line."""
from __future__ import annotations

import re
from typing import NamedTuple

from .history import Mode

MODELS, SCHEDULERS = ("wv", "gsv", "psv", "ev"), ("fcfs", "jit", "timeline")
MOST_WINDOWS = 288


class Words(NamedTuple):
    command: str  # run, replay, watch, keep, rooms, check or trial
    mode: Mode = Mode("ev", "fcfs")
    trace: bool = False
    windows: int = 0  # of a trial


def read_options(words: list[str]) -> dict[str, str] | None:
    """The options by their names, or none. The words are used up."""
    options: dict[str, str] = {}
    while words:
        name, equals, value = words.pop(0).partition("=")
        if name == "--trace" and not equals:
            value = "true"
        elif name not in ("--model", "--scheduler") or not (equals or words):
            return None
        elif not equals:
            value = words.pop(0)
        if name in options:
            return None
        options[name] = value
    return options


def has_mode(asked: Words) -> bool:
    """Whether there are such a model and such a scheduler, and the command takes both; `rooms` has
    no trace and no weak model.
    """
    model, scheduler = asked.mode
    if asked.command == "rooms" and (asked.trace or model == "wv"):
        return False
    return model in MODELS and scheduler in SCHEDULERS and (model == "ev" or scheduler == "fcfs")


def read_words(words: list[str]) -> Words | None:
    """What the words ask for, or none."""
    match words:
        case [("run" | "replay" | "watch" | "keep" | "rooms") as command, *rest]:
            options = read_options(rest)
            if options is None:
                return None
            mode = Mode(options.get("--model", "ev"), options.get("--scheduler", "fcfs"))
            asked = Words(command, mode, "--trace" in options)
            return asked if has_mode(asked) else None
        case ["check"]:
            return Words("check")
        case ["trial", number] if re.fullmatch("[1-9][0-9]{0,2}", number, re.ASCII):
            return Words("trial", windows=int(number)) if int(number) <= MOST_WINDOWS else None
    return None
