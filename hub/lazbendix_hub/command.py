"""The command `lazbendix-hub`."""
from __future__ import annotations

import argparse
import asyncio
import os
import sys
from typing import Sequence

from lazbendix_hub import __version__
from lazbendix_hub.daemon import BadHome, Daemon, load
from lazbendix_hub.history import History, why_text
from lazbendix_hub.home import (BrokerPlace, CronTrigger, DeviceTrigger, EntityTrigger, Home, Job,
                                Routine, RoutineTrigger, SunTrigger, TopicTrigger, Trigger)
from lazbendix_hub.house import refusal
from lazbendix_hub.logs import begin_logs

FOLDER = "lazbendix-data"


def entry() -> None:
    """The command's entry."""
    sys.exit(main(sys.argv[1:]))


def main(words: Sequence[str]) -> int:
    """Does what the words ask, and answers the status: 0, 1 where the file or the question is
    wrong, 2 where the words are."""
    asked = parser().parse_args(words)
    try:
        return int(asked.does(asked))
    except BadHome as bad:
        print(bad, file=sys.stderr)
        return 1
    except BrokenPipeError:
        os.dup2(os.open(os.devnull, os.O_WRONLY), sys.stdout.fileno())
        return 0
    except KeyboardInterrupt:
        return 130


def parser() -> argparse.ArgumentParser:
    """The words of the command."""
    top = argparse.ArgumentParser(prog="lazbendix-hub", description="Routines of a household over "
                                  "MQTT, run by a proved core.")
    top.add_argument("--version", action="version", version=f"lazbendix-hub {__version__}")
    of = top.add_subparsers(dest="command", required=True, metavar="COMMAND")
    run = of.add_parser("run", help="runs the hub of a home.yaml until it is told to end")
    run.set_defaults(does=run_hub)
    check = of.add_parser("check", help="reads a home.yaml, and tells every mistake by its line")
    check.set_defaults(does=check_home)
    routines = of.add_parser("routines", help="lists the routines of a home.yaml")
    routines.set_defaults(does=list_routines)
    for each in (run, check, routines):
        each.add_argument("home", metavar="home.yaml")
    why = of.add_parser("why", help="tells what became of a run, and why")
    why.set_defaults(does=tell_why)
    why.add_argument("run", metavar="LAST|RUN", help="`last`, or a number of the history")
    for each in (run, why):
        each.add_argument("--folder", default=FOLDER, help="where the hub keeps its files "
                                                           f"(default {FOLDER})")
    run.add_argument("--plain", action="store_true", help="logs for a terminal, not as JSON")
    run.add_argument("--level", default="INFO", choices=("DEBUG", "INFO", "WARNING", "ERROR"))
    import_words(of.add_parser("import", help="writes a home.yaml to begin with, of the devices "
                               "that Zigbee2MQTT, Tasmota and others announce, or of the "
                               "entities of Home Assistant"))
    demo = of.add_parser("demo", help="a broker, simulated devices, a hub and its page: no "
                                      "hardware, no file")
    demo.set_defaults(does=run_demo)
    demo.add_argument("--seconds", type=float, default=0, help="ends by itself after so long")
    demo.add_argument("--port", type=int, default=8099, help="of the page (default 8099)")
    demo.add_argument("--no-browser", action="store_true", help="opens no browser")
    return top


def import_words(found: argparse.ArgumentParser) -> None:
    """The words of `import`."""
    found.set_defaults(does=import_devices)
    found.add_argument("--host", default="127.0.0.1")
    found.add_argument("--port", type=int, default=1883)
    found.add_argument("--user", default="")
    found.add_argument("--password-file", default="", help="its first line is the password")
    found.add_argument("--home-assistant", default="", metavar="URL", help="its entities, as "
                       "http://homeassistant.local:8123; wants --token-file")
    found.add_argument("--token-file", default="", help="its first line is a long-lived access "
                                                        "token of Home Assistant")
    found.add_argument("--zigbee2mqtt", default="zigbee2mqtt", help="its base topic")
    found.add_argument("--discovery", default="homeassistant", help="the prefix of what others "
                                                                    "announce to Home Assistant")
    found.add_argument("--seconds", type=float, default=3, help="so long it listens (default 3)")


def run_hub(asked: argparse.Namespace) -> int:
    """`run`."""
    home = load(asked.home)
    why = refusal(home)
    if why:
        raise BadHome(f"{asked.home}: the core refuses it: {why}")
    begin_logs(asked.plain, asked.level)
    return asyncio.run(live(asked.home, asked.folder, home))


async def live(path: str, folder: str, home: Home) -> int:
    """Runs the daemon; the status."""
    try:
        os.makedirs(folder, exist_ok=True)
        await Daemon(path, folder, home).run()
    except OSError as error:
        print(f"lazbendix-hub: {error}", file=sys.stderr)
        return 1
    return 0


def check_home(asked: argparse.Namespace) -> int:
    """`check`."""
    home = load(asked.home)
    why = refusal(home)
    if why:
        raise BadHome(f"{asked.home}: the core refuses it: {why}")
    outside = len(home.devices) - home.core_count
    print(f"{asked.home}: fine; {len(home.devices)} devices"
          + (f", {outside} of which no routine uses" if outside else "")
          + f", {len(home.routines)} routines")
    return 0


def list_routines(asked: argparse.Namespace) -> int:
    """`routines`."""
    home = load(asked.home)
    for routine in home.routines:
        label = f" ({routine.label})" if routine.label != routine.name else ""
        print(f"{routine.name}{label}")
        for step in range(1, 1 + max(command.step for command in routine.commands)):
            print(f"    {step_text(step, routine, home)}")
        for trigger in routine.triggers:
            print(f"    when {trigger_text(trigger, home)}")
    return 0


def step_text(step: int, routine: Routine, home: Home) -> str:
    """A step of the routine in words."""
    commands = [command for command in routine.commands if command.step == step]
    last = commands[-1]
    names = dict.fromkeys(home.devices[command.device].name for command in commands)
    job = "toggle" if commands[0].job is Job.LOAD else last.job.value
    words = dict.fromkeys(home.devices[command.device].kind.word(command.value)
                          for command in commands if command.job is not Job.LOAD)
    between = f"between {' and '.join(words)}" if job == "toggle" else f"to {', '.join(words)}"
    return f"{job} {', '.join(names)} {between}{'' if last.is_must else ', if it can'}"


def trigger_text(trigger: Trigger, home: Home) -> str:
    """A trigger in words."""
    match trigger:
        case TopicTrigger():
            what = f"`{trigger.payload}`" if trigger.payload else "a message"
            of = f" as {trigger.prop}" if trigger.prop else ""
            return f"{what}{of} comes on {trigger.topic}"
        case EntityTrigger():
            return f"{trigger.entity} becomes {trigger.to or 'another one'}"
        case CronTrigger():
            return f"it is {trigger.cron} (cron)"
        case SunTrigger():
            minutes = round(abs(trigger.offset) / 60)
            sun = "sunrise" if trigger.is_rise else "sunset"
            side = "before" if trigger.offset < 0 else "after"
            return f"it is {minutes} min {side} {sun}" if minutes else f"it is {sun}"
        case DeviceTrigger():
            device = home.devices[trigger.device]
            how = {"to": "is", "above": "is above", "below": "is below"}[trigger.how]
            for_ = f" for {trigger.after:g} s" if trigger.after else ""
            return f"{device.name} {how} {device.kind.word(trigger.value)}{for_}"
        case RoutineTrigger():
            return f"{trigger.after:g} s have passed since {trigger.routine}"


def tell_why(asked: argparse.Namespace) -> int:
    """`why`."""
    path = os.path.join(asked.folder, "history.sqlite")
    if not os.path.exists(path):
        print(f"lazbendix-hub: there is no history in {asked.folder}", file=sys.stderr)
        return 1
    word = asked.run.lower()
    if word != "last" and not (word.isascii() and word.isdigit() and len(word) < 16):
        print("lazbendix-hub: why LAST, or why RUN with a number of the history", file=sys.stderr)
        return 2
    history = History(asked.folder)
    row = history.get(None if word == "last" else int(word))
    history.close()
    if row is None:
        print("lazbendix-hub: no such run has ended", file=sys.stderr)
        return 1
    print(why_text(row))
    return 0


def import_devices(asked: argparse.Namespace) -> int:
    """`import`."""
    from lazbendix_hub.importing import imported, listened

    begin_logs(True, "ERROR")
    if asked.home_assistant:
        return import_entities(asked)
    password = first_line(asked.password_file)
    place = BrokerPlace(asked.host, asked.port, asked.user, password)
    told = asyncio.run(listened(place, asked.zigbee2mqtt, asked.seconds, asked.discovery))
    if told is None:
        print("lazbendix-hub: the broker did not answer", file=sys.stderr)
        return 1
    print(imported(place, asked.zigbee2mqtt, told), end="")
    return 0


def import_entities(asked: argparse.Namespace) -> int:
    """`import --home-assistant`."""
    from lazbendix_hub.importing import entities, imported_entities

    token = first_line(asked.token_file)
    if not token:
        print("lazbendix-hub: --home-assistant wants --token-file", file=sys.stderr)
        return 2
    states = asyncio.run(entities(asked.home_assistant, token, asked.seconds))
    if states is None:
        print("lazbendix-hub: Home Assistant did not answer", file=sys.stderr)
        return 1
    path = os.path.abspath(asked.token_file)
    print(imported_entities(asked.home_assistant, path, states), end="")
    return 0


def first_line(path: str) -> str:
    """The first line of a file, empty where no file is named. Raises `BadHome`."""
    try:
        if path:
            with open(path, encoding="utf-8") as file:
                return file.readline().strip()
    except (OSError, UnicodeDecodeError) as error:
        raise BadHome(f"{path}: {error}") from None
    return ""


def run_demo(asked: argparse.Namespace) -> int:
    """`demo`."""
    from lazbendix_hub.demo import demo

    begin_logs(True, "WARNING")
    return asyncio.run(demo(asked.seconds, asked.port, not asked.no_browser))
