#!/usr/bin/env python3
"""Shows that summary, trace_events and next_day tell drawn days as the reference played them.

    PYTHONPATH=python python3 -m dev.check_days [DAYS [SEED]]

Draws days (1000 of the seed 1, and behind them half as many with guards), replays each by the
reference in one mode after the other, and asks

- of the summary of the traced record that each line is told: in the sentences that name the line
  stand its run, its device, its value, its cause. What stands in a line is read off its words here,
  and not by the reader of the tools;
- that what it says was undone is what the reference drove; and of waits that at each step of a run
  it tells the one that the hub would have told with no grip out, at the last moment that the
  history names, from step to step. Those that the hub told are counted, apart where they hang on a
  grip that was out or on the moment itself, which no history shows;
- of the summary of the record without its trace that it is made, and so of the record cut behind
  some line;
- of the trace events that slices nest, that each entry is one, and that each arrow leads forward
  from an entry to an entry;
- of the next script that it is the old one but for starts, downs and times, that its starts are
  those of the last home line, and that the reference plays it; and so of the script of the rest of
  a day whose record was cut.

Prints how many there were of each, and the first that is otherwise; ends with 1 then.
"""
import argparse
import collections
import json
import random
import re
import sys
from typing import Any

from dev import check_trace_events
from dev.check_trace_events import check_events
from lazbendix.next_day import NoNext, next_day
from lazbendix.records import read_day
from lazbendix.reference import days
from lazbendix.reference.compare import MODES
from lazbendix.reference.history import Entry, Mode
from lazbendix.reference.hub import WAITS, Busy, Hub
from lazbendix.reference.record import head_text, total_text, window_text
from lazbendix.reference.replay import Home
from lazbendix.reference.script import Script, read_script
from lazbendix.summary import Said, WindowTeller, ordinal, sentences, summary
from lazbendix.trace_events import DEVICES, trace_of

Counts = collections.Counter[str]


class Otherwise(Exception):
    pass


def need(true: object, *told: object) -> None:
    if not true:
        raise Otherwise("\n".join(map(str, told)))


# A day is played, and what the hub did beside its history is noted.


def shown_wait(hub: Hub, run: int) -> object:
    """The wait that the history shows: with no grip out, at the last moment that it names."""
    moments = [
        getattr(getattr(entry, "cause", None) or entry, "moment", 0)
        for entry in hub.history.entries
    ]
    out, held = hub.out, hub.held
    hub.out, hub.held = {}, {}
    told = (
        hub.decide(run, max(moments, default=0))
        if run in hub.history.arrived and run not in hub.history.ends
        else None
    )
    hub.out, hub.held = out, held
    return told if isinstance(told, WAITS) else None


class Noted:
    """Notes the undos that were driven, and of each step what was told and shown, with how many
    entries the window had.
    """

    def __init__(self) -> None:
        self.undos: list[tuple[int, int, int]] = []
        self.waits: list[tuple[int, int, object, object]] = []
        self.ends: set[int] = set()
        self.undo_entries, self.take, self.make = Hub.undo_entries, Hub.take, Hub.make

    def __enter__(self) -> "Noted":
        noted = self

        def undo_entries(hub: Hub, run: int, device: int, grip: Any) -> Any:
            if grip.worked:
                noted.undos.append((run, device, grip.task.value))
            return noted.undo_entries(hub, run, device, grip)

        def take(hub: Hub, run: int, moment: int) -> Any:
            entries, shown = len(hub.history.entries), shown_wait(hub, run)
            told = noted.take(hub, run, moment)
            noted.waits.append(
                (
                    entries,
                    run,
                    told if isinstance(told, WAITS) and not isinstance(told, Busy) else None,
                    shown,
                )
            )
            return told

        def make(hub: Hub, entries: list[Entry]) -> Any:
            made = noted.make(hub, entries)
            noted.ends.add(len(hub.history.entries) - 1)
            return made

        self.put(undo_entries, take, make)
        return self

    @staticmethod
    def put(*methods: Any) -> None:
        for name, method in zip(("undo_entries", "take", "make"), methods):
            setattr(Hub, name, method)

    def __exit__(self, *_: object) -> None:
        self.put(self.undo_entries, self.take, self.make)


def played(script: Script, mode: Mode) -> tuple[str, str, list[Noted]]:
    """The texts of the day with and without its trace, and what was noted of each window."""
    home, records, noted = Home(script), [], list[Noted]()
    for window in script.windows:
        with Noted() as of_window:
            records.append(home.replay(window, mode))
        noted.append(of_window)

    def text(trace: bool) -> str:
        windows = [window_text(script, k, record, mode, trace) for k, record in enumerate(records)]
        return "".join([head_text(mode), *windows, total_text(records)])

    return text(True), text(False), noted


# Each line is told.


def cause_words(words: list[str]) -> list[str]:
    match words:
        case ["must", c]:
            return [f"command {c},", "down"]
        case ["refuted", c, "found", value]:
            return [f"command {c},", f"at {value}"]
        case ["lost" | "downatend", device]:
            return [device]
        case ["revoked", device, "by", lender, "deadline", deadline, "at", moment]:
            return [device, f"run {lender} ", f"until {deadline} ms", f"at {moment} ms"]
    raise Otherwise(f"a cause of no kind: {words}")


def answer_words(answer: str) -> str:
    return {".": "done", "-": "it was down", "/": "skipped"}.get(answer, f"it was {answer}")


def on(script: Any, window: Any, run: int, c: int) -> str:
    """The device of a run's command."""
    name = window["runs"][run - 1]["routine"]
    return str(
        next(routine for routine in script["routines"] if routine["name"] == name)["commands"][
            c - 1
        ]["on"]
    )


def words_of(line: str, script: Any, window: Any) -> list[str]:
    """Pieces that stand in what is told of the line."""
    return (
        entry_words(line[2:].split(" "), script, window)
        if line.startswith("# ")
        else outcome_words(line.split(" "))
    )


def entry_words(words: list[str], script: Any, window: Any) -> list[str]:
    match words:
        case ["arrived", run, "at", moment]:
            return [f"Run {run} ", f"came at {moment} ms"]
        case ["placed", run, "place", place, "at", moment]:
            return [
                f"Run {run} ",
                f"got the {ordinal(int(place) + 1)} place in the line (place {place}) at {moment} "
                f"ms",
            ]
        case ["did", command, answer]:
            by, c = map(int, command.split("."))
            return [f"Run {by} ", f"{c}. ", on(script, window, by, c), answer_words(answer)]
        case ["undid", run, device, how]:
            return [
                f"Run {run} ",
                f"{device} was {'driven back' if how == 'drove' else 'not driven'}",
            ]
        case ["fell", device]:
            return [f"{device} stopped answering"]
        case ["rose", device]:
            return [f"{device} was back"]
        case ["doomed", run, *cause]:
            return [f"Run {run} ", "taken back", *cause_words(cause)]
        case ["ended", run, end]:
            return [f"Run {run} ", "committed" if end == "committed" else "taken back"]
    raise Otherwise(f"an entry of no kind: {words}")


def outcome_words(words: list[str]) -> list[str]:
    match words:
        case ["safehome", "day"]:
            return ["A day under"]
        case ["model", model, scheduler]:
            return [f"({model})", f"({scheduler})"]
        case ["window", number, time]:
            return [f"Window {number} of", time]
        case ["run", run, name, "committed", *answers]:
            return [
                f"Run {run} ({name}) committed",
                *(f"{c}. " for c in range(1, len(answers) + 1)),
                *map(answer_words, answers),
            ]
        case ["run", run, name, "aborted", *cause]:
            return [f"Run {run} ({name}) was taken back", *cause_words(cause)]
        case ["order", *items]:
            return list(map(item_words, items))
        case ["home", *stands]:
            return [part for stand in stands if stand != "none" for part in home_words(stand)] or [
                "no device"
            ]
        case ["total", "windows", _, "runs", runs, "committed", committed, "aborted", aborted]:
            return [f"{runs} run", f"{committed} committed", f"{aborted} taken back"]
    raise Otherwise(f"a line of no kind: {words}")


def item_words(item: str) -> str:
    if item.isdigit():
        return f"run {item} ("
    told = {"none": "nothing", "unclaimed": "claims none"}.get(item, item)
    return re.sub(r"fail\((.*)\)", r"\1 fails", re.sub(r"back\((.*)\)", r"\1 is back", told))


def home_words(stand: str) -> list[str]:
    name, value = stand.rstrip("!").split("=")
    return [f"{name} ", value] + (
        [f"{name}, which is to stand at {value}"] if stand.endswith("!") else []
    )


def check_lines(text: str, script: Any, said: list[Said]) -> int:
    """Asks that each line is told; how many there are."""
    told: dict[int, str] = collections.defaultdict(str)
    head = ""
    for sentence in said:
        head = sentence.text if sentence.depth == 1 else head if sentence.depth == 2 else ""
        for number in sentence.lines:
            told[number] += f"{head if sentence.depth == 2 else ''} {sentence.text}"
    lines, window = text.split("\n")[:-1], None
    for number, line in enumerate(lines, 1):
        if line.startswith("window "):
            window = script["windows"][int(line.split(" ")[1]) - 1]
        for words in words_of(line, script, window):
            need(
                words in told[number],
                f"line {number}: {line}",
                f"told: {told[number]}",
                f"missing: {words}",
                text,
            )
    return len(lines)


def check_noted(script: Script, text: str, noted: list[Noted], counts: Counts) -> None:
    """Undos and waits as the hub had them."""
    day = read_day(script, text)
    for number, of_window in enumerate(noted):
        teller = WindowTeller(script, day, number)
        told = [
            words
            for run in teller.of_run
            for _, entry, words in teller.of_run[run]
            if "driven back" in words
        ]
        wanted = [
            f"{script.devices[d].name} was driven back to {script.devices[d].word(value)}"
            for _, d, value in of_window.undos
        ]
        need(sorted(told) == sorted(wanted), text, told, wanted)
        counts["undos told as they were driven"] += len(told)
        need(
            all(
                {wait.since, wait.since if wait.until is None else wait.until} <= of_window.ends
                for wait in teller.again.waits
            ),
            text,
        )
        for entries, run, why, shown in of_window.waits:
            waits = [
                wait.why
                for wait in teller.again.waits
                if wait.run == run
                and wait.since < entries
                and (wait.until is None or entries <= wait.until)
            ]
            need(
                waits == [shown] * (shown is not None),
                text,
                f"run {run} behind {entries} entries",
                waits,
                shown,
            )
            if why:
                counts[
                    "waits of the hub that are told"
                    if why == shown
                    else "waits of the hub that no history shows"
                ] += 1


# Trace events.


def check_trace(script: Script, text: str, counts: Counts) -> None:
    trace = json.loads(json.dumps(trace_of(script, text)))
    try:
        phases = check_events(trace)
    except check_trace_events.Otherwise as why:
        raise Otherwise(f"{why}\n{text}") from None
    told, begins = collections.Counter[int](), set()
    for event in trace["traceEvents"]:
        if event["ph"] == "X" and "line" in event["args"]:
            begins.add((event["pid"], event["tid"], event["ts"]))
            told[event["args"]["line"]] += event["tid"] < DEVICES or event["cat"] == "device"
    entries = [number for number, line in enumerate(text.split("\n"), 1) if line.startswith("# ")]
    need(+told == collections.Counter(entries), text, told)
    for event in trace["traceEvents"]:
        need(
            event["ph"] not in "sf" or (event["pid"], event["tid"], event["ts"]) in begins,
            text,
            event,
        )
    counts["slices"] += phases["X"]
    counts["arrows"] += phases["s"]


# The next day.


def check_next(data: bytes, script: Script, text: str, mode: Mode, counts: Counts) -> None:
    made, told = next_day(data, text)
    before, after = json.loads(data), json.loads(made)
    homes = [line for line in text.split("\n") if line.startswith("home ")]
    for device, word, old in zip(after["devices"], homes[-1].split(" ")[1:], before["devices"]):
        name, value = word.rstrip("!").split("=")
        need(device["name"] == name and str(device["start"]) == value, made, text)
        need(device.get("down", []) == ([[1, 2]] if word.endswith("!") else []), made, text)
        need(any(f"{name} was left down" in line for line in told) == word.endswith("!"), told)
        counts["devices left down"] += word.endswith("!")
        old["start"] = device["start"] = 0
        old["down"] = device["down"] = []
    for window, old in zip(after["windows"], before["windows"]):
        need(window["at"] == old["at"].replace("-26T", "-27T"), made)
        window["at"] = old["at"] = ""
    need(before == after, made)
    played(read_script(made), mode)


def check_rest(data: bytes, text: str, cut: float, mode: Mode) -> None:
    """The script of the rest of a day whose record was cut."""
    before, lines = json.loads(data), text.splitlines(keepends=True)
    kept = "".join(lines[: max(2, int(cut * len(lines)))])
    homes = [line for line in kept.split("\n")[:-1] if line.startswith("home ")]
    if len(homes) == len(before["windows"]):
        try:
            next_day(data, kept, rest=True)
            need(False, kept)
        except NoNext:
            return
    after = json.loads(next_day(data, kept, rest=True)[0])
    need(
        after["windows"] == before["windows"][len(homes) :]
        and after["routines"] == before["routines"],
        after,
        kept,
    )
    for device, word, old in zip(
        after["devices"], (homes or [""])[-1].split(" ")[1:] or after["devices"], before["devices"]
    ):
        need(
            str(device["start"])
            == (word.rstrip("!").split("=")[1] if homes else str(old["start"])),
            after,
            kept,
        )
    played(read_script(json.dumps(after).encode()), mode)


def check_day(data: bytes, mode: Mode, cut: float, counts: Counts) -> None:
    script = read_script(data)
    traced, plain, noted = played(script, mode)
    counts["lines told"] += check_lines(traced, json.loads(data), list(sentences(script, traced)))
    counts["lines told without a trace"] += check_lines(
        plain, json.loads(data), list(sentences(script, plain))
    )
    summary(
        script,
        "".join(traced.splitlines(keepends=True)[: max(2, int(cut * traced.count("\n")))]),
        with_lines=True,
    )
    check_noted(script, traced, noted, counts)
    check_trace(script, traced, counts)
    check_next(data, script, traced, mode, counts)
    check_rest(data, plain, cut, mode)
    counts[f"days under {mode.model} {mode.scheduler}"] += 1


def main() -> None:
    options = argparse.ArgumentParser(
        description=__doc__, formatter_class=argparse.RawDescriptionHelpFormatter
    )
    options.add_argument("days", type=int, nargs="?", default=1000)
    options.add_argument("seed", type=int, nargs="?", default=1)
    asked = options.parse_args()
    draw, counts = random.Random(asked.seed), Counts()
    try:
        for k in range(asked.days + asked.days // 2):
            script = days.with_picks(draw, days.day(draw))
            data = json.dumps(script if k < asked.days else days.guarded(draw, script)).encode()
            try:
                check_day(data, Mode(*MODES[k % len(MODES)]), draw.random(), counts)
            except Otherwise as why:
                raise Otherwise(f"{data.decode()}\n{MODES[k % len(MODES)]}\n{why}") from None
    except Otherwise as why:
        sys.exit(f"check_days: {why}")
    for kind, number in counts.items():
        print(f"{number:7} {kind}")


if __name__ == "__main__":
    main()
