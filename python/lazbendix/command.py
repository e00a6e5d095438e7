"""The command `lazbendix`: it stands in front of the proved program, and has the tools for people.

What plays and judges is the program, with its own words, statuses and bytes; this reads files,
takes comments out, explains what is refused, and shows what came of a day.
"""
import argparse
import gc
import json
import os
import re
import sys
from collections.abc import Callable

from lazbendix import about, compare, shells
from lazbendix.choice import Choice
from lazbendix.explain import MOST_LETTERS, explanation, told_as_json
from lazbendix.given import Given, Text, Unplayed, read_bytes, read_given, read_text
from lazbendix.next_day import NoNext, next_day
from lazbendix.picture import picture_of
from lazbendix.plain import NoYaml, joined, plain_check
from lazbendix.program import (
    NO_PROGRAM,
    WRITE,
    Ended,
    NoProgram,
    call,
    found_program,
    is_reader_gone,
    kept_call,
)
from lazbendix.records import Unread
from lazbendix.reference.calls import divided
from lazbendix.reference.script import Refusal, read_script
from lazbendix.reference.words import read_words
from lazbendix.script_mistakes import near
from lazbendix.summary import facts_of, summary
from lazbendix.terminal import colours_of
from lazbendix.trace_events import trace_text
from lazbendix.viewer import page_of
from lazbendix.words import Maker, OtherWords, Reader, is_file, why_no_mode

HELPS = {
    7: 'the record is not what its script gives in the order that it prints: docs/FORMATS.md, "The '
    'check of a record"',
    9: "home.journal could not be opened, read, written or synced: nothing that is kept is lost",
    10: 'home.journal is of another home, or was changed: docs/FORMATS.md, "The journal"',
    11: "a run has commands in two rooms, or follows a run of another one: lazbendix run plays the "
    "day as it is",
}


PAGES = os.path.join(sys.prefix, "share", "doc", "lazbendix")  # of the Debian package
MOST_SEEDS = 12  # that stand beside each other


def complain(*lines: str) -> None:
    print(*lines, sep="\n", file=sys.stderr)


# Calls of the program.


def mode_words(asked: argparse.Namespace) -> list[str]:
    """The words for the model and the scheduler that were asked for. Raises `OtherWords`."""
    words = []
    for name in ("model", "scheduler"):
        if getattr(asked, name):
            words += [f"--{name}", getattr(asked, name)]
    trace = ["--trace"] if getattr(asked, "trace", False) else []
    command = asked.command if asked.command in ("run", "watch", "keep", "rooms") else "replay"
    if read_words([command, *words, *trace]) is None:
        raise OtherWords(
            f"lazbendix {asked.command}",
            why_no_mode(command, asked.model, asked.scheduler, bool(trace)),
        )
    return words + trace


def finished(ended: Ended, text: Text | None) -> int:
    """The status of a call, when what helps has been said."""
    if ended.status == WRITE and is_reader_gone():
        return WRITE
    if ended.line:
        complain(ended.line)
    if ended.status == 1 and text is not None:
        explain_refusal(text)
    elif ended.status in HELPS:
        complain(f"lazbendix: {HELPS[ended.status]}")
    return ended.status


def explain_refusal(text: Text) -> None:
    """Explains on standard error why a script is refused."""
    told, is_read = explanation(
        text.name, text.plain, text.written, colours_of(sys.stderr), notes=False
    )
    if not is_read:
        sys.stderr.write(told)


def play(asked: argparse.Namespace) -> int:
    words = [asked.command, *mode_words(asked)]
    text = read_text(asked.day, asked.yaml)
    return finished(call(words, text.plain), text)


def check_input(asked: argparse.Namespace) -> tuple[bytes, Text]:
    """The input of the check, and its script."""
    if asked.record is None:
        data = plain_check(read_bytes(asked.day, "a script, a line %% and a record"))
        script, _ = divided(data)
        return data, Text("script" if asked.day == "-" else asked.day, script, script)
    text = read_text(asked.day)
    return joined(text.written, read_bytes(asked.record, "a record")), text


def record_line(record: bytes, window: int, place: str) -> tuple[int, str] | None:
    """The line of a record at which a check finds something: its number, from 1, and its text."""
    lines = record.decode("utf-8", "replace").split("\n")
    words = place.split(" ")
    begin = f"window {window} "
    if words[0] == "answer":
        words = ["run", words[1].partition(".")[0]]
    head = {"window": begin, "run": f"run {words[-1]} ", "order": "order ", "total": "total "}
    wanted = head.get(words[0], "home ")
    is_there = words[0] == "total"
    for number, line in enumerate(lines, 1):
        is_there = is_there or line.startswith(begin)
        if is_there and line.startswith(wanted):
            return number, line
    return None


def check(asked: argparse.Namespace) -> int:
    if asked.day == "-" and asked.record == "-":
        raise OtherWords(
            "lazbendix check", "script and record cannot both come from standard input"
        )
    data, text = check_input(asked)
    ended = kept_call(["check"], data) if asked.json else call(["check"], data)
    place = re.fullmatch(r"check: window (\d+) (.*)", ended.line)
    if not asked.json:
        status = finished(ended, text)
        found = place and record_line(divided(data)[1], int(place[1]), place[2])
        if found:
            name = asked.record if asked.record not in (None, "-") else "record"
            complain(f"{name}:{found[0]}: {found[1][:MOST_LETTERS]}")
        return status
    verdict: dict[str, object] = {"agrees": ended.status == 0, "status": ended.status}
    if place:
        verdict |= {"window": int(place[1]), "place": place[2]}
    if ended.line:
        verdict["line"] = ended.line
    print(json.dumps(verdict))
    return finished(Ended(ended.status, ""), text if ended.status == 1 else None)


def trial(asked: argparse.Namespace) -> int:
    if read_words(["trial", asked.windows]) is None:
        raise OtherWords(
            "lazbendix trial",
            f'"{asked.windows}" is no number from 1 to 288, without leading zeros',
        )
    return finished(call(["trial", asked.windows]), None)


# Tools for people.


def explain(asked: argparse.Namespace) -> int:
    text = read_text(asked.day, asked.yaml)
    if asked.json:
        facts = told_as_json(text.name, text.plain, asked.scheduler)
        print(json.dumps(facts, indent=2))
        return 0 if facts["read"] else 1
    colours = colours_of(sys.stdout)
    told, is_read = explanation(
        text.name, text.plain, text.written, colours, scheduler=asked.scheduler
    )
    sys.stdout.write(told)
    return 0 if is_read else 1


def choice_of(asked: argparse.Namespace) -> Choice:
    """Which part of a day is shown."""
    return Choice(asked.window, asked.run, asked.device, asked.aborted)


def looked_into(asked: argparse.Namespace, show: Callable[[Given], str]) -> int:
    """Writes what is shown of a day."""
    if asked.day == "-" and asked.record == "-":
        raise OtherWords(
            f"lazbendix {asked.command}", "script and record cannot both come from standard input"
        )
    words = mode_words(asked)
    if asked.record is not None and words:
        raise OtherWords(
            f"lazbendix {asked.command}",
            "a model and a scheduler are for a replay, and a record is named",
        )
    text = read_text(asked.day, asked.yaml)
    gc.set_threshold(100_000, 50, 50)  # a day is many small values, and few of them go
    try:
        sys.stdout.write(show(read_given(text, asked.record, words)))
    except Refusal as refusal:
        complain(f"script: {refusal}")
        explain_refusal(text)
        return 1
    except Unplayed as why:
        return finished(why.ended, text)
    return 0


def show_summary(asked: argparse.Namespace) -> int:
    def show(given: Given) -> str:
        if asked.json:
            return (
                json.dumps(facts_of(given.script, given.record, choice_of(asked)), indent=1) + "\n"
            )
        colours = colours_of(sys.stdout)
        part = choice_of(asked)
        return summary(given.script, given.record, part, asked.lines, colours, asked.short)

    return looked_into(asked, show)


def show_page(asked: argparse.Namespace) -> int:
    return looked_into(
        asked,
        lambda given: page_of(
            given.script, given.record, asked.title or given.name, choice_of(asked)
        ),
    )


def show_picture(asked: argparse.Namespace) -> int:
    return looked_into(
        asked,
        lambda given: picture_of(
            given.script,
            given.record,
            asked.title or given.name,
            asked.columns,
            asked.all,
            choice_of(asked),
        ),
    )


def show_trace(asked: argparse.Namespace) -> int:
    return looked_into(
        asked, lambda given: trace_text(given.script, given.record, asked.axis, choice_of(asked))
    )


def records_of(asked: argparse.Namespace, text: Text) -> list[tuple[str, str]]:
    """The records that are compared, each with its name. Raises `Unplayed`."""
    if asked.records:
        names = [os.path.basename(name) for name in asked.records]
        names = names if len(set(names)) == len(names) else asked.records
        told = [read_bytes(name, "a record").decode("utf-8", "replace") for name in asked.records]
        return list(zip(names, told))
    mode = mode_words(asked)
    if asked.models:
        calls = [(f"{model} fcfs", ["--model", model], text.plain) for model in compare.MODELS]
    elif asked.schedulers:
        calls = [(f"ev {it}", ["--scheduler", it], text.plain) for it in compare.SCHEDULERS]
    else:
        first, last = asked.seeds
        seeds = range(first, last + 1)
        calls = [(f"seed {seed}", mode, compare.with_seed(text.plain, seed)) for seed in seeds]
    return [(name, replayed(words, data)) for name, words, data in calls]


def replayed(mode: list[str], data: bytes) -> str:
    """The record of a replay. Raises `Unplayed`."""
    ended = kept_call(["replay", "--trace", *mode], data)
    if ended.status:
        raise Unplayed(ended)
    return ended.output.decode()


def compare_records(asked: argparse.Namespace) -> int:
    kinds = [bool(asked.records), asked.models, asked.schedulers, asked.seeds is not None]
    if sum(kinds) != 1 or len(asked.records) == 1:
        wanted = "two records or more, or one of --models, --schedulers and --seeds, are compared"
        raise OtherWords("lazbendix compare", wanted)
    if (asked.model or asked.scheduler) and asked.seeds is None:
        raise OtherWords("lazbendix compare", "a model and a scheduler go with --seeds alone")
    if asked.seeds and asked.seeds[1] >= min(2**64, asked.seeds[0] + MOST_SEEDS):
        raise OtherWords("lazbendix compare", f"at most {MOST_SEEDS} seeds below 2^64 are compared")
    text = read_text(asked.day, asked.yaml)
    try:
        script = read_script(text.plain)
        columns = [compare.column_of(script, told, name) for name, told in records_of(asked, text)]
    except Refusal as refusal:
        complain(f"script: {refusal}")
        explain_refusal(text)
        return 1
    except Unplayed as why:
        return finished(why.ended, text)
    if asked.json:
        print(json.dumps(compare.facts_of(script, columns, asked.models), indent=1))
    else:
        sys.stdout.write(compare.comparison(script, columns, asked.models))
    return 0


def make_next(asked: argparse.Namespace) -> int:
    def show(given: Given) -> str:
        made, told = next_day(given.data, given.record, asked.days, asked.silent, asked.rest)
        for line in told:
            complain(f"lazbendix next: {line}")
        return made.decode("utf-8", "surrogateescape")

    return looked_into(asked, show)


# The command itself.


def doctor(asked: argparse.Namespace) -> int:
    colours, found = colours_of(sys.stdout), about.findings()
    marks = {True: colours.paint("good", "ok"), False: colours.paint("bad", "NO"), None: "--"}
    for name, is_good, words in found:
        print(f"{marks[is_good]}  {name}: {words}")
    return 1 if any(is_good is False for _, is_good, _ in found) else 0


def version(asked: argparse.Namespace) -> int:
    try:
        program = found_program() or "the reference: no proved program is installed"
    except NoProgram as why:
        program = str(why)
    print(f"lazbendix {about.version()}\nplays by {program}")
    return 0


def completions(asked: argparse.Namespace) -> int:
    sys.stdout.write(shells.completions(reader(), asked.shell))
    return 0


def man(asked: argparse.Namespace) -> int:
    sys.stdout.write(shells.man_page(reader(), about.version()))
    return 0


def show_help(asked: argparse.Namespace) -> int:
    commands = shells.commands_of(reader())
    if asked.about is not None and asked.about not in commands:
        raise OtherWords(
            "lazbendix help", f'there is no command "{asked.about}"{near(asked.about, commands)}'
        )
    print((commands[asked.about] if asked.about else reader()).format_help(), end="")
    return 0


ACTS: dict[str, Callable[[argparse.Namespace], int]] = {
    **dict.fromkeys(("replay", "run", "watch", "keep", "rooms"), play),
    "check": check,
    "trial": trial,
    "explain": explain,
    "summary": show_summary,
    "view": show_page,
    "picture": show_picture,
    "trace": show_trace,
    "compare": compare_records,
    "next": make_next,
    "doctor": doctor,
    "version": version,
    "completions": completions,
    "man": man,
    "help": show_help,
}


def reader() -> Reader:
    return Maker(ACTS).make()


def asked_of(argv: list[str]) -> argparse.Namespace:
    """What the words ask for. Raises `OtherWords`."""
    top = reader()
    commands = shells.commands_of(top)
    first = argv[0] if argv else ""
    if not first:
        raise OtherWords("lazbendix", "a command is wanted: " + ", ".join(commands))
    if not first.startswith("-") and first not in commands:
        advice = (
            f"; lazbendix replay {first} plays a day" if is_file(first) else near(first, commands)
        )
        raise OtherWords("lazbendix", f'there is no command "{first}"{advice}')
    asked = top.parse_args(["--version"] if argv[1:] == ["--version"] else argv)
    if asked.version:
        asked.act = version
    elif asked.command is None:
        raise OtherWords("lazbendix", "a command is wanted: " + ", ".join(commands))
    return asked


def packaged(why: OSError) -> str:
    """Where the package has the file that was looked for here, in words, if it has one."""
    there = os.path.join(PAGES, str(why.filename))
    is_there = isinstance(why, FileNotFoundError) and os.path.isfile(there)
    return f" (the package has {there})" if is_there else ""


def acted(argv: list[str]) -> int:
    """Does what the words ask for; the status."""
    try:
        asked = asked_of(argv)
        return int(asked.act(asked))
    except OtherWords as wrong:
        complain("words", f"{wrong.command}: {wrong}", f"({wrong.command} --help has the words)")
        return 2
    except NoProgram as why:
        complain(f"lazbendix: {why}")
        return NO_PROGRAM
    except (Unread, NoNext, NoYaml) as why:
        complain(f"lazbendix: {why}")
        return 1
    except OSError as why:
        if isinstance(why, BrokenPipeError):
            raise
        told = f"{why.filename}: {why.strerror}{packaged(why)}" if why.filename else str(why)
        complain("read", f"lazbendix: {told}")
        return 3


def main(argv: list[str]) -> int:
    """Does what the words ask for, and answers the status. Where the reader of a pipe has gone,
    nothing is said."""
    try:
        status = acted(argv)
        sys.stdout.flush()
        return status
    except BrokenPipeError:
        os.dup2(os.open(os.devnull, os.O_WRONLY), 1)
        return WRITE
    except KeyboardInterrupt:
        return 130


def entry() -> None:
    """The command as it is installed."""
    sys.exit(main(sys.argv[1:]))
