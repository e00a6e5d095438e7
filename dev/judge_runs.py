"""Judges the record of a day that was played with its trace, by a serial execution of its own.

Which threads of `run` step first is not the day's to say, so no record is expected of a day: each
is judged.

In each mode: the history goes on as the rules have it, every run ends, a run that follows another
is placed behind its end, and the lines of the runs, the home and the total say what the history
says. Outside the weak model: the printed order holds each committed run, each failure and each
restart once, and no aborted run, and a run stands in it behind the one that it follows; its serial
execution, which knows nothing of the hub, gives each committed run's answers and the state of the
home. Under the weak model: a read finds what the last write left, `Down` is answered where the
device is down, and the home is as the last writes left it. Only just in time and by the timeline is
a lease revoked: of a device that both runs use, for a run that was placed before and has its next
command there, past the deadline that the plan gives. By the timeline each place is the one that the
history gives (timeline.py).
"""
from __future__ import annotations

from typing import Any

from dev.timeline import Plan, Timeline

Answer = int | str
Command = dict[str, Any]  # as a script has it
Device = dict[str, Any]
Home = dict[str, dict[str, int]]  # of each device its value, and whether it is up
LEASES = ("jit", "timeline")
ESTIMATE = 100


class Wrong(Exception):
    """What of a record is not as it should be."""


def expect(true: object, what: str) -> None:
    if not true:
        raise Wrong(what)


# Serial execution


def value_of(device: dict[str, Any], word: str) -> int:
    """The number of a printed value."""
    states: list[str] | None = device.get("states")
    return states.index(word) if states else int(word)


def nearest(device: dict[str, Any], number: int) -> int:
    if "states" in device:
        return min(number, len(device["states"]) - 1)
    low, high = int(device["low"]), int(device["high"])
    return max(low, min(high, number))


def wanted(device: dict[str, Any], command: Command) -> int:
    return value_of(device, str(command["to"]))


def fails(device: dict[str, Any], command: Command, answer: Answer) -> bool:
    """Whether the answer is that of a must command that has failed."""
    if not command.get("must", True):
        return False
    return answer == "-" or (
        command["do"] == "check" and answer not in ("/", wanted(device, command))
    )


def is_done(command: Command, register: int) -> bool:
    """Whether the command's guard holds."""
    when: dict[str, int] = command.get("when", {})
    return register == when.get("is", register) and register < when.get("below", register + 1)


def loaded(commands: list[Command], answers: list[Answer]) -> int:
    """The register of a run with these answers."""
    register = 0
    for command, answer in zip(commands, answers):
        if command["do"] == "load" and isinstance(answer, int):
            register = answer
    return register


def executed(
    home: Home,
    devices: dict[str, Device],
    commands: list[Command],
) -> list[Answer]:
    """The answers of a routine that is executed alone on the home, which it changes."""
    register, answers = 0, list[Answer]()
    for command in commands:
        device, place = devices[command["on"]], home[command["on"]]
        if not is_done(command, register):
            answers.append("/")
        elif not place["up"]:
            answers.append("-")
        elif command["do"] in ("set", "store"):
            place["value"] = (
                wanted(device, command) if command["do"] == "set" else nearest(device, register)
            )
            answers.append(".")
        else:
            answers.append(place["value"])
            if command["do"] == "load":
                register = place["value"]
        expect(
            not fails(device, command, answers[-1]),
            "a run of the order has a must command that fails serially",
        )
    return answers


# Records


class Window:
    """The lines of one window of a record."""

    def __init__(
        self,
        lines: list[str],
        head: str,
        devices: dict[str, Device],
        runs: list[list[Command]],
        follows: list[int | None],
    ) -> None:
        self.devices = devices
        self.entries, self.ends = list[list[str]](), dict[int, list[str]]()
        self.runs, self.follows = runs, follows
        expect(lines.pop(0) == head, f"no line {head}")
        while lines and lines[0].startswith("# "):
            self.entries.append(lines.pop(0)[2:].split(" "))
        for r, commands in enumerate(runs, 1):
            words = lines.pop(0).split(" ")
            expect(words[:2] == ["run", str(r)], f"no line of the run {r}")
            self.ends[r] = words[3:]
        self.order = lines.pop(0).split(" ")[1:]
        self.home = lines.pop(0).split(" ")[1:]

    def command(self, word: str) -> tuple[int, Command]:
        """The run and the command of `R.C`."""
        r, c = map(int, word.split("."))
        return r, self.runs[r - 1][c - 1]

    def answer(self, command: Command, word: str) -> Answer:
        return word if word in (".", "-", "/") else value_of(self.devices[command["on"]], word)


def deadline(commands: list[Command], placed: int, device: str, timeline: Plan | None) -> int:
    """Until when a run that was placed at this moment may keep the device: in turn, or by its plan
    of the timeline.
    """
    last = max(c for c, command in enumerate(commands) if command["on"] == device)
    estimate = sum(int(command.get("ms", ESTIMATE)) for command in commands[: last + 1])
    return (timeline[device][1] if timeline else placed + estimate) + -(-estimate // 10)


def expect_overdue(
    window: Window,
    borrower: int,
    words: list[str],
    placed: dict[int, int],
    live: list[int],
    answers: dict[int, list[Answer]],
    planned: Plan | None,
) -> int:
    """That the borrower's lease is overdue with these words: `DEVICE by LENDER deadline N at M`.
    Answers the moment.
    """
    device, by, lender_word, of, until_word, at, moment_word = words
    expect((by, of, at) == ("by", "deadline", "at"), "a revocation has other words")
    lender, until, moment = int(lender_word), int(until_word), int(moment_word)
    expect(
        borrower in live and lender in live and lender != borrower,
        "a lease is revoked of or for a run that is not live",
    )
    expect(
        list(placed).index(lender) < list(placed).index(borrower),
        "a lease is revoked for a run that was placed later",
    )
    asked = window.runs[lender - 1][len(answers[lender]) :]
    register = loaded(window.runs[lender - 1], answers[lender])
    is_asked = asked and asked[0]["on"] == device and is_done(asked[0], register)
    expect(is_asked, "a lease is revoked of a device that is not asked for")
    held = window.runs[borrower - 1][len(answers[borrower]) :]
    expect(
        any(command["on"] == device for command in held),
        "a lease is revoked of a run that is done on the device",
    )
    commands = window.runs[borrower - 1]
    expect(
        until == deadline(commands, placed[borrower], device, planned),
        "a lease has another deadline",
    )
    expect(moment > until, "a lease is revoked before its deadline is past")
    return moment


def walked(
    window: Window, home: Home, model: str, scheduler: str
) -> tuple[dict[int, list[Answer]], dict[int, list[str]], list[str]]:
    """Goes along the history: the answers of each run, and the items that the order must have; the
    home is as at its end.
    """
    weak = model == "wv"
    answers: dict[int, list[Answer]] = {r: [] for r in window.ends}
    doomed, ended = dict[str, list[str]](), dict[int, list[str]]()
    events, last, placed = list[str](), 0, dict[int, int]()
    begun: dict[str, list[int]] = {"arrived": [], "placed": []}
    timeline = Timeline(window.runs, window.follows)
    for entry in window.entries:
        kind = entry[0]
        if kind in ("arrived", "placed"):
            begun[kind].append(int(entry[1]))
            expect(entry[-2] == "at" and int(entry[-1]) >= last, "a moment falls")
            last = int(entry[-1])
            if kind == "placed":
                leader = window.follows[int(entry[1]) - 1]
                expect(
                    leader is None or leader in ended,
                    "a run is placed before the one that it follows has ended",
                )
                placed[int(entry[1])] = last
                if scheduler == "timeline":
                    expect(
                        timeline.is_place(int(entry[1]), int(entry[3]), last),
                        "a run is placed elsewhere than the timeline says",
                    )
        elif kind == "did":
            r, command = window.command(entry[1])
            answer, place = window.answer(command, entry[2]), home[command["on"]]
            expect(
                r not in ended and command is window.runs[r - 1][len(answers[r])],
                "a command is answered out of turn",
            )
            skips = not is_done(command, loaded(window.runs[r - 1], answers[r]))
            expect(
                (answer == "/") == skips,
                "a command is skipped whose guard holds, or done though it does not",
            )
            expect(not skips or str(r) not in doomed, "a doomed run skips a command")
            answers[r].append(answer)
            seen = [
                a
                for c, a in zip(window.runs[r - 1], answers[r][:-1])
                if c["on"] == command["on"] and a != "/"
            ]
            expect(
                answer != "-" or not place["up"] or (not weak and "-" in seen[:1]),
                "Down is answered where the device is up",
            )
            if weak and answer not in (".", "-", "/"):
                expect(
                    answer == place["value"], "a read finds another value than the last write left"
                )
            if weak and answer == ".":
                place["value"] = written(
                    window.devices[command["on"]], command, window.runs[r - 1], answers[r]
                )
        elif kind in ("fell", "rose"):
            place = home[entry[1]]
            expect(
                place["up"] == (kind == "fell"),
                "a device fails that is down, or comes back that is up",
            )
            place["up"] = kind == "rose"
            events.append(("fail" if kind == "fell" else "back") + f"({entry[1]})")
        elif kind == "doomed":
            expect(entry[1] not in doomed, "a run is doomed twice")
            doomed[entry[1]] = entry[2:]
            if entry[2] == "revoked":
                expect(
                    scheduler in LEASES, "a lease is revoked of a run that was served when it came"
                )
                live = [
                    r
                    for r in placed
                    if r not in ended and (str(r) not in doomed or r == int(entry[1]))
                ]
                planned = timeline.plans[int(entry[1])] if scheduler == "timeline" else None
                moment = expect_overdue(
                    window, int(entry[1]), entry[3:], placed, live, answers, planned
                )
                expect(moment >= last, "a moment falls")
                last = moment
        elif kind == "ended":
            expect(
                (entry[1] in doomed) == (entry[2] == "aborted"),
                "a doomed run commits, or another is aborted",
            )
            ended[int(entry[1])] = entry[2:] + doomed.get(entry[1], [])
        else:
            expect(
                kind == "undid" and not weak and entry[1] in doomed,
                "a run that is not doomed is undone",
            )
        if scheduler == "timeline":
            timeline.follow(entry)
    for runs in (ended, begun["arrived"], begun["placed"]):
        expect(
            sorted(runs) == sorted(window.ends),
            "a run has not arrived, is not placed or has not ended, or does so twice",
        )
    return answers, ended, events


def written(
    device: dict[str, Any],
    command: Command,
    commands: list[Command],
    answers: list[Answer],
) -> int:
    """What a store or a set writes whose run has these answers."""
    return (
        wanted(device, command)
        if command["do"] == "set"
        else nearest(device, loaded(commands, answers))
    )


def judged(window: Window, home: Home, model: str, scheduler: str) -> int:
    """Judges one window that begins with this home, and leaves the home as it ends."""
    serial = {name: dict(place) for name, place in home.items()}
    answers, ended, events = walked(window, home, model, scheduler)
    committed = [r for r in ended if ended[r] == ["committed"]]
    for r, words in window.ends.items():
        expect(
            words[:1] == ["committed"] if r in committed else words == ended[r],
            "a run's line and its history differ",
        )
        if r in committed:
            said = [
                window.answer(c, word)
                for c, word in zip(window.runs[r - 1], words[1:], strict=True)
            ]
            expect(said == answers[r], "a run's line has other answers than its history")
            for command, answer in zip(window.runs[r - 1], said):
                expect(
                    not fails(window.devices[command["on"]], command, answer),
                    "a run commits with a failed must command",
                )
    if model == "wv":
        expect(window.order == ["unclaimed"], "the weak model claims an order")
    else:
        order = [] if window.order == ["none"] else window.order
        expect(
            sorted(order) == sorted(events + [str(r) for r in committed]),
            "the order holds other items than the history",
        )
        for r, leader in enumerate(window.follows, 1):
            if leader in committed and r in committed:
                expect(
                    order.index(str(leader)) < order.index(str(r)),
                    "a run stands before the one that it follows",
                )
        for item in order:
            if item.isdigit():
                given = executed(serial, window.devices, window.runs[int(item) - 1])
                expect(
                    given == answers[int(item)],
                    f"the run {item} is answered otherwise in its serial execution",
                )
            else:
                serial[item[5:-1]]["up"] = item.startswith("back")
        for name, place in home.items():
            expect(
                serial[name]["up"] == place["up"],
                f"the device {name} is counted otherwise in the serial execution",
            )
            place["value"] = serial[name]["value"]
    for word, (name, place) in zip(window.home, home.items(), strict=True):
        device, value = word.split("=")
        expect(device == name and value.endswith("!") != place["up"], f"the home has {word}")
        if place["up"] or model != "wv":
            expect(
                value_of(window.devices[name], value.rstrip("!")) == place["value"],
                f"the home has {word}",
            )
    return len(committed)


def judge(script: dict[str, Any], record: str, model: str, scheduler: str) -> tuple[int, int]:
    """How many runs the record has, and how many of them committed. It raises `Wrong` where
    something is not as it should be.
    """
    devices = {d["name"]: d for d in script["devices"]}
    routines = {r["name"]: r["commands"] for r in script["routines"]}
    home = {
        name: {"value": value_of(d, str(d["start"])), "up": True} for name, d in devices.items()
    }
    lines = record.split("\n")
    expect(
        lines.pop() == "" and lines[:2] == ["safehome day", f"model {model} {scheduler}"], "no head"
    )
    lines = lines[2:]
    runs = committed = 0
    for k, given in enumerate(script["windows"], 1):
        follows = [run.get("follows") for run in given["runs"]]
        head = f"window {k} {given['at']}"
        window = Window(
            lines, head, devices, [routines[run["routine"]] for run in given["runs"]], follows
        )
        committed += judged(window, home, model, scheduler)
        runs += len(given["runs"])
    total = (
        f"total windows {len(script['windows'])} runs {runs} committed {committed} aborted "
        f"{runs - committed}"
    )
    expect(lines == [total], "another total")
    return runs, committed
