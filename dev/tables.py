#!/usr/bin/env python3
"""Makes the expected outputs of the stored tables anew from their stored inputs, and compares them
with what is stored.

    PYTHONPATH=python python3 -m dev.tables [--write] [TABLE ..]
    PYTHONPATH=python python3 -m dev.tables cases
    PYTHONPATH=python python3 -m dev.tables case NAME WORD .. < script

The first form makes all, or script_table, check_table, day_table, step_table, examples, agree. The
second one prints the lines of day_table's input for the examples, the third one those for this
call.

With `--write` the outputs take the place of the stored ones. `agree` judges every record that is
stored, in a table or an example, by the check of records, but for those of the weak model, which
claim no order. Prints a line for each table, and of a table that differs the first line that does;
ends with 1 where one differs.

An example is `examples/NAME.words`, the words of a call and its script, with its record beside it,
`NAME.record`, and, where it is traced, its picture, docs/pictures/NAME.svg, under the headline that
its script has in examples/README.md.
"""
from __future__ import annotations

import collections
import dataclasses
import itertools
import os
import re
import sys
from collections.abc import Iterator

from lazbendix.picture import picture_of
from lazbendix.reference.calls import BytesSink, BytesSource, Call
from lazbendix.reference.check import Differs, check_record
from lazbendix.reference.devices import Grip
from lazbendix.reference.disks import BytesDisk
from lazbendix.reference.history import Cause, Ended, Entry, Mode
from lazbendix.reference.hub import WAITS, Hub, Record, Stranger
from lazbendix.reference.record import head_text, window_text
from lazbendix.reference.replay import Draws, Home, Player
from lazbendix.reference.script import (
    DeviceText,
    Refusal,
    RoutineText,
    Script,
    WindowText,
    read_script,
)
from lazbendix.reference.serial import DOWN, FINE, SKIPPED, Command, Refused, execute_serially
from lazbendix.reference.words import read_words

HERE = os.path.dirname(os.path.realpath(__file__))
CRATES = os.path.join(HERE, "..", "crates")
EXAMPLES = os.path.join(HERE, "..", "examples")
PICTURES = os.path.join(HERE, "..", "docs", "pictures")


ROOM = 1 << 16  # bytes of a sink, where a case does not say


# script_table: a script a line


def script_line(data: bytes) -> str:
    try:
        script = read_script(data)
    except Refusal as refusal:
        return str(refusal)
    return ", ".join(
        [
            "script",
            *map(device_part, script.devices),
            *map(routine_part, script.routines),
            *map(window_part, script.windows),
        ]
    )


def device_part(device: DeviceText) -> str:
    kind = " ".join(device.states) or f"{device.kind.low}..{device.kind.high}"
    return "".join(
        [
            f"device {device.name} {kind} start {device.start}",
            *(f" down {a}..{b}" for a, b in device.downs),
        ]
    )


def routine_part(routine: RoutineText) -> str:
    def command(command: Command) -> str:
        value = "" if command.value is None else f" {command.value}"
        guard = f" when {command.when.word} {command.when.value}" if command.when else ""
        return (
            f" {command.device} {command.job}{value} {'must' if command.must else 'best'} "
            f"{command.ms} {command.takes}{guard}"
        )

    return "".join([f"routine {routine.name}", *map(command, routine.commands)])


def window_part(window: WindowText) -> str:
    at, turns = "-".join(map(str, window.at)), "".join(f" {turn}" for turn in window.turns)
    runs = "".join(
        f" {run.routine}" + (f" after {run.follows}" if run.follows else "") for run in window.runs
    )
    return f"window {at} seed {window.seed} probes {window.probes} turns{turns} runs{runs}"


def script_table(data: bytes) -> bytes:
    return "".join(f"{script_line(line)}\n" for line in data.split(b"\n")).encode() + b"memory\n"


# check_table: a verb a line, a record a case


def verdict(script: Script, record: bytes) -> str:
    try:
        check_record(script, record)
    except Differs as differs:
        return str(differs)
    return "agrees"


def check_table(data: bytes) -> bytes:
    out, name, record = [], "", b""
    script = Script([], [], [])
    for line in data.decode().split("\n"):
        verb, _, rest = line.partition(" ")
        match verb:
            case "script":
                script = read_script(rest.encode())
            case "case":
                name = rest
            case "line":
                record += rest.encode() + b"\n"
            case "text":
                record += rest.encode()
            case "byte":
                record += bytes([int(rest)])
            case "run":
                out.append(f"{name} {verdict(script, record)}\n")
                name, record = "", b""
    return "".join(out).encode()


# day_table: a verb a line, a call a case


class Before:
    """What a case may take from those before it: the input that was kept last, what the last sink
    held, and the last disk.
    """

    def __init__(self) -> None:
        self.kept = self.record = self.file = b""


class Case:
    def __init__(self, before: Before) -> None:
        self.name, self.words, self.data, self.before = "", list[str](), bytearray(), before
        self.source, self.sink, self.room = (0, 65_536), (0, 65_536), ROOM
        self.disk, self.file, self.loses = (0, ROOM), b"", False

    def add(self, verb: str, rest: str) -> None:
        match verb:
            case "case":
                self.name = rest
            case "word":
                self.words.append(rest)
            case "source" | "sink" | "disk":
                setattr(self, verb, tuple(map(int, rest.split(" "))))
            case "room":
                self.room = int(rest)
            case "keep":
                self.before.kept = bytes(self.data)
            case "loses":
                self.loses = True
            case "file":
                self.file += bytes(map(int, rest.split(" ")))
            case "found":
                self.file += self.before.file
            case _:
                self.data += self.piece(verb, rest)

    def piece(self, verb: str, rest: str) -> bytes:
        """More bytes of the input."""
        match verb:
            case "text":
                return rest.encode()
            case "line":
                return rest.encode() + b"\n"
            case "byte":
                return bytes([int(rest)])
            case "times":
                count, _, text = rest.partition(" ")
                return text.encode() * int(count)
            case "kept":
                return self.before.kept
            case "first":
                return self.before.kept[: int(rest)]
            case "record":
                return self.before.record
        return b""

    def outcome(self) -> bytes:
        source, sink = BytesSource(bytes(self.data), *self.source), BytesSink(self.room, *self.sink)
        disk = BytesDisk(self.file, *self.disk)
        # these the call behind the table does not take
        call = Call(
            [] if self.words[:1] in (["run"], ["watch"], ["rooms"]) else self.words,
            source,
            sink,
            disk,
        )
        self.before.record = sink.held
        lines = [
            f"case {self.name}",
            f"status {call.status}",
            *([f"fault {call.line}"] if call.line else []),
        ]
        if call.script is None:
            lines.append("no day")
        else:
            lines.append(f"day windows {len(call.records)} devices {len(call.script.devices)}")
        if self.words[:1] == ["keep"]:
            self.before.file = disk.crashed(not self.loses).held
            lines.append(" ".join(["disk", *map(str, self.before.file)]))
        lines += [f"left {len(source.data)}", f"record {len(sink.held)}", ""]
        return "\n".join(lines).encode() + sink.held + b"\n"


def cases(data: bytes) -> Iterator[Case]:
    """Each case of the table. Before the next one is asked for, the record of this one has to be
    told to `before`.
    """
    before = Before()
    case = Case(before)
    for line in data.decode().split("\n"):
        verb, _, rest = line.partition(" ")
        if line == "run":
            yield case
            case = Case(before)
        else:
            case.add(verb, rest)


def day_table(data: bytes) -> bytes:
    return b"".join(case.outcome() for case in cases(data))


def case_lines(name: str, words: list[str], data: bytes) -> str:
    """The lines of day_table's input that make this call."""
    lines = [f"case {name}", *(f"word {word}" for word in words)]
    *whole, rest = data.decode().split("\n")
    lines += [f"line {line}" for line in whole] + ([f"text {rest}"] if rest else [])
    return "\n".join([*lines, "run", ""])


# step_table: a window a line, and what is done in it. What Rust's `Debug` shows is written so here.

NUMBERS = {"run": "RunNo", "lender": "RunNo", "device": "DeviceNo"}
WITH_NAMES = ("Revoked", "Slip")


def shown(value: object, name: str = "") -> str:
    if value is None:
        return "None"
    if isinstance(value, bool):
        return str(value).lower()
    if name == "answer":
        said = {FINE: "Fine", DOWN: "Down", SKIPPED: "Skipped"}
        return said.get(str(value)) or f"Found({value})"
    if not dataclasses.is_dataclass(value):
        return f"{NUMBERS[name]}({value})" if name in NUMBERS else str(value)
    kind, fields = type(value).__name__, [field.name for field in dataclasses.fields(value)]
    parts = [shown(getattr(value, field), field) for field in fields]
    if isinstance(value, Ended):
        parts[1] = end_shown(value.cause)
    if kind in WITH_NAMES:
        return f"{kind} {{ {', '.join(f'{field}: {part}' for field, part in zip(fields, parts))} }}"
    return f"{kind}({', '.join(parts)})" if parts else kind


def end_shown(cause: Cause | None) -> str:
    return "Committed" if cause is None else f"Aborted({shown(cause)})"


def made(entries: list[Entry]) -> str:
    return "".join(f" {shown(entry)}" for entry in entries)


class Row:
    """A window of a script, and the lines that are told of it."""

    def __init__(self, mode: Mode, script: Script) -> None:
        self.mode, self.script, self.window = mode, script, script.windows[0]
        self.lines: list[str] = []

    def open(self) -> Hub:
        self.home = Home(self.script)
        return self.home.open_window(self.window, self.mode)

    def judgement(self, record: Record, hub: Hub) -> str:
        if self.mode.model == "wv":
            return "no order claimed"
        try:
            last, answers = execute_serially(record.first, hub.kinds, hub.runs, record.order)
        except Refused:
            return "serial differs"
        committed = {
            run: record.answers[run] for run, cause in record.ends.items() if cause is None
        }
        return "serial agrees" if (last, answers) == (record.last, committed) else "serial differs"

    def tell_closed(self, hub: Hub) -> None:
        record = self.home.close_window(hub)
        self.lines += window_text(self.script, 0, record, self.mode, True).splitlines()
        self.lines.append(f"turns {record.turns} faults {record.faults} opened 1")
        self.lines.append(self.judgement(record, hub))

    def play(self) -> None:
        player = Player(self.open(), self.window.probes)
        for k, actor in enumerate(self.window.turns, 1):
            picked = player.pick(actor) if actor in (0, *player.hub.runs) else None
            match picked:
                case None:
                    told = " passed"
                case int():
                    told = f" took DeviceNo({picked})"
                case list():
                    told = made(picked)
                case _:
                    told = f" waits {shown(picked)}"
            self.lines.append(f"pick {k} of {actor}{told}")
        if player.hub.not_quiet():
            self.lines.append(f"not closed: {shown(player.hub.not_quiet())}")
            player.finish(self.window.seed)
        self.tell_closed(player.hub)

    def replay(self) -> None:
        player = Player(self.open(), self.window.probes)
        for actor in self.window.turns:
            player.pick(actor)
        player.finish(self.window.seed)
        self.tell_closed(player.hub)

    def run(self) -> None:
        """One course of the threads; what is told is the same of each."""
        player = Player(self.open(), self.window.probes)
        player.finish(self.window.seed)
        self.lines.append(f"run {len(self.window.runs)} runs")
        self.lines.append(self.judgement(self.home.close_window(player.hub), player.hub))

    def steps(self, steps: str) -> None:
        hubs, homes, grips = dict[str, Hub](), dict[str, Home](), list[Grip]()
        for side in "ab":
            hubs[side], homes[side] = self.open(), self.home
        for step in steps.split(","):
            side, call, run, moment = step.split()
            tell = self.take if call == "take" else self.give
            self.lines.append(f"{step.strip()}: " + tell(hubs[side], int(run), int(moment), grips))
        for grip in reversed(grips):
            if isinstance(hubs["a"].give(grip, 0), Stranger):
                hubs["b"].give(grip, 0)
        for side, hub in hubs.items():
            if hub.not_quiet() is None:
                self.lines.append(f"{side.upper()} closed")
                self.home = homes[side]
                self.tell_closed(hub)
            else:
                fresh = shown(not (hub.history.entries or hub.out))
                self.lines.append(f"{side.upper()} {shown(hub.not_quiet())}, fresh {fresh}")

    def take(self, hub: Hub, run: int, moment: int, grips: list[Grip]) -> str:
        if run not in hub.runs:
            return "absent"
        taken = hub.take(run, moment)
        if isinstance(taken, Grip):
            grips.append(taken.act())
            return f"go {shown(taken.slip)} {shown(taken.task)}"
        if isinstance(taken, WAITS):
            return f"wait {shown(taken)}"
        if run in hub.history.ends:
            return f"over {end_shown(hub.history.ends[run])}{made(taken)}"
        return f"moved{made(taken)}"

    def give(self, hub: Hub, run: int, moment: int, grips: list[Grip]) -> str:
        at = next((k for k, grip in enumerate(grips) if grip.slip.maker == run), None)
        if at is None:
            return "no grip"
        grips[at], grips[-1] = grips[-1], grips[at]
        grip = grips.pop()
        given = hub.give(grip, moment)
        if isinstance(given, Stranger):
            grips.append(grip)
            kept = f"Some({shown(given.kept)})" if given.kept else "None"
            return f"stranger kept {kept} told {shown(given.told)}"
        return f"made{made(given)}"


def row_lines(line: str) -> list[str]:
    name, head, rest = line.split(" | ", 2)
    first, second = head.split(" ")
    if first == "draws":
        draws = Draws(int(second))
        return [name, *(f"below {bound}: {draws.below(int(bound))}" for bound in rest.split())]
    calls, text = rest.split(" | ", 1)
    try:
        script = read_script(text.encode())
    except Refusal as refusal:
        return [name, str(refusal)]
    if calls in ("play", "replay") and not script.windows:
        return [name, "no window"]
    if not script.windows or (second != "fcfs" and first != "ev"):
        return [name, "not opened"]
    row = Row(Mode(first, second), script)
    if calls in ("play", "replay", "run"):
        getattr(row, calls)()
    else:
        row.steps(calls)
    return [name, *row.lines]


def step_table(data: bytes) -> bytes:
    lines = [line for row in data.decode().split("\n") if row for line in row_lines(row)]
    return "".join(f"{line}\n" for line in lines).encode()


# The examples


def examples() -> Iterator[tuple[str, list[str], bytes]]:
    """Their names, words and scripts."""
    for file in sorted(os.listdir(EXAMPLES)):
        name, kind = os.path.splitext(file)
        if kind == ".words":
            with open(os.path.join(EXAMPLES, file)) as stored:
                words, script = stored.read().strip().split(" < ")
            with open(os.path.join(EXAMPLES, script), "rb") as stored:
                yield name, words.split(" "), stored.read()


def headline(name: str) -> str:
    """What examples/README.md says in bold type of the example, or of the one whose variant it
    is.
    """
    said = re.findall(r"\*\*`([a-z-]+)`: (.*?)\.\*\*", read_file(EXAMPLES, "README.md").decode())
    return next(
        (f"{name}: {point}" for script, point in said if f"{name}-".startswith(f"{script}-")), name
    )


def record_of(words: list[str], data: bytes) -> bytes:
    sink = BytesSink()
    Call(words, BytesSource(data), sink)
    return sink.held


def compare_example(name: str, words: list[str], data: bytes, write: bool) -> bool:
    record = record_of(words, data)
    same = compare(f"{name}.record", record, os.path.join(EXAMPLES, f"{name}.record"), write)
    if "--trace" in words:
        picture = picture_of(read_script(data), record.decode(), headline(name)).encode()
        same &= compare(f"{name}.svg", picture, os.path.join(PICTURES, f"{name}.svg"), write)
    return same


# The records that are stored


def stored_calls() -> Iterator[tuple[list[str], bytes, bytes]]:
    """The words, the input and the record of each call of day_table that ends with 0."""
    outcomes = read_file(CRATES, "day_table", "stdout")
    for case in cases(read_file(CRATES, "day_table", "stdin")):
        told, _, outcomes = outcomes.partition(b"\nrecord ")
        size, _, outcomes = outcomes.partition(b"\n")
        case.before.record, outcomes = outcomes[: int(size)], outcomes[int(size) + 1 :]
        if b"\nstatus 0\n" in told:
            yield case.words, bytes(case.data), case.before.record


def stored_windows() -> Iterator[tuple[Mode, str, list[str]]]:
    """The words, the script and the text of each window that step_table closes. Those of a row
    stand behind its name.
    """
    told = read_file(CRATES, "step_table", "stdout").decode().split("\n")
    rows = [row for row in read_file(CRATES, "step_table", "stdin").decode().split("\n") if row]
    begins, at = [], 0
    for row in rows:
        begins.append(at := told.index(row.split(" | ")[0], at))
        at += 1
    for row, begin, end in zip(rows, begins, [*begins[1:], len(told)]):
        lines, (first, second) = told[begin:end], row.split(" | ")[1].split(" ")
        for k, line in enumerate(lines):
            if line.startswith("window 1 "):
                home = next(h for h in range(k, len(lines)) if lines[h].startswith("home "))
                yield Mode(first, second), row.split(" | ", 3)[3], lines[k : home + 1]


def record_of_window(mode: Mode, lines: list[str]) -> bytes:
    """The record of a day of this window alone."""
    runs = [line.split(" ")[3] for line in lines if line.startswith("run ")]
    done = runs.count("committed")
    total = f"total windows 1 runs {len(runs)} committed {done} aborted {len(runs) - done}\n"
    return (head_text(mode) + "".join(f"{line}\n" for line in lines) + total).encode()


def stored_records() -> Iterator[tuple[str, str, Script, bytes]]:
    """Where it is stored, its model, its script and its text, of each whole record and each
    window.
    """
    for words, data, record in stored_calls():
        asked = read_words(words)
        if asked and asked.command == "replay":
            yield "day_table", asked.mode.model, read_script(data), record
    for mode, text, lines in stored_windows():
        script = read_script(text.encode())
        yield "step_table", mode.model, script._replace(
            windows=script.windows[:1]
        ), record_of_window(mode, lines)
    for name, words, data in examples():
        asked = read_words(words)
        assert asked is not None
        record = read_file(EXAMPLES, f"{name}.record")
        yield "examples", asked.mode.model, read_script(data), record


def agree() -> bool:
    """Whether each record agrees, but for those of the weak model, whose head promises no order."""
    counts, same = collections.Counter[tuple[str, str]](), True
    for place, model, script, record in stored_records():
        told, wanted = verdict(script, record), "window 0 head" if model == "wv" else "agrees"
        counts[place, wanted] += 1
        if told != wanted:
            same = False
            print(f"{place}: {told}, not {wanted}:\n{record.decode()}")
    for (place, wanted), count in counts.items():
        print(f"{place}: {count} records, {wanted}")
    return same


# All tables

TABLES = {
    "script_table": script_table,
    "check_table": check_table,
    "day_table": day_table,
    "step_table": step_table,
}


def read_file(*path: str) -> bytes:
    with open(os.path.join(*path), "rb") as stored:
        return stored.read()


def compare(name: str, anew: bytes, path: str, write: bool) -> bool:
    """Whether what is stored there is what was made anew."""
    stored = read_file(path) if os.path.exists(path) else b""
    if anew == stored:
        print(f"{name}: {len(stored)} bytes, no difference", flush=True)
        return True
    old, new = stored.decode().split("\n"), anew.decode().split("\n")
    at = next(k for k, (one, other) in enumerate(itertools.zip_longest(old, new)) if one != other)
    told = [lines[at] if at < len(lines) else "no line" for lines in (old, new)]
    print(f"{name}: line {at + 1} differs\nstored: {told[0]}\nanew: {told[1]}", flush=True)
    if write:
        with open(path, "wb") as out:
            out.write(anew)
    return False


def main() -> None:
    words = sys.argv[1:]
    if {"-h", "--help"} & set(words[:1]):
        print(__doc__)
        return
    if words[:1] == ["case"]:
        sys.stdout.write(case_lines(words[1], words[2:], sys.stdin.buffer.read()))
        return
    if words == ["cases"]:
        sys.stdout.write(
            "".join(case_lines(f"example-{name}", asked, data) for name, asked, data in examples())
        )
        return
    write, same = "--write" in words, True
    for name in [word for word in words if word != "--write"] or [*TABLES, "examples", "agree"]:
        if name == "examples":
            for example, asked, data in examples():
                same &= compare_example(example, asked, data, write)
        elif name == "agree":
            same &= agree()
        elif name not in TABLES:
            sys.exit(f"tables: there is no table {name} (--help)")
        else:
            anew = TABLES[name](read_file(CRATES, name, "stdin"))
            same &= compare(name, anew, os.path.join(CRATES, name, "stdout"), write)
    sys.exit(0 if same else 1)


if __name__ == "__main__":
    main()
