"""The words of the command line, from which its help, its man page and its completions are made."""
import argparse
import os
from collections.abc import Callable, Sequence
from typing import Any, NoReturn

from lazbendix.reference.words import MODELS, SCHEDULERS
from lazbendix.script_mistakes import near

MODEL_WORDS = {
    "ev": "eventual",
    "psv": "partitioned strict",
    "gsv": "global strict",
    "wv": "weak",
}
DAY_ABOUT = {
    "replay": "play a day step by step, by the script's turns and seed: the same record each time",
    "run": "play a day with threads; turns and seeds are not heeded",
    "watch": "do what run does, and report while it runs how far the day is",
    "keep": "do what replay does, and keep the home in home.journal; begun again, go on behind it",
    "rooms": "do what run does, with a hub for each room of the home",
}
DAY_EXAMPLES = {
    "replay": [
        "lazbendix replay examples/one-light.json",
        "lazbendix replay --trace --model psv day.json > day.record",
        "generate-a-day | lazbendix replay -",
    ],
    "run": ["lazbendix run day.json", "lazbendix run --scheduler jit day.json"],
    "watch": ["lazbendix watch day.json > day.record"],
    "keep": ["lazbendix keep day.json", "lazbendix keep --trace --scheduler timeline day.json"],
    "rooms": ["lazbendix rooms day.json"],
}
RECORD_HELP = "its record, a file or -; where none is named, the day is replayed with its trace"
ABOUT = "Plays days of a smart home through a proved hub, and shows what came of them."
STATUSES = (
    "Ends with 0; 1 where the script is refused, 2 for other words, 3 where a file cannot be read, "
    "4 where nothing can be "
    "written, and as docs/FORMATS.md has it for the rest."
)


class OtherWords(Exception):
    """The words are of another form."""

    def __init__(self, command: str, message: str) -> None:
        super().__init__(message)
        self.command = command


class Reader(argparse.ArgumentParser):
    """A reader of words that raises `OtherWords`, and whose help shows examples as they stand."""

    def __init__(self, *words: Any, **more: Any) -> None:
        more.setdefault("formatter_class", argparse.RawDescriptionHelpFormatter)
        more["allow_abbrev"] = False
        super().__init__(*words, **more)

    def error(self, message: str) -> NoReturn:
        raise OtherWords(self.prog, message)


class Once(argparse.Action):
    """Keeps a value that may be given once."""

    def __call__(
        self,
        parser: argparse.ArgumentParser,
        namespace: argparse.Namespace,
        values: Any,
        option_string: str | None = None,
    ) -> None:
        given = vars(namespace).setdefault("given", [])
        if self.dest in given:
            parser.error(f"{option_string} is given twice")
        given.append(self.dest)
        setattr(namespace, self.dest, True if self.nargs == 0 else values)


def one_of(what: str, names: Sequence[str]) -> Callable[[str], str]:
    """A reader of a word out of these."""

    def read(word: str) -> str:
        if word not in names:
            raise argparse.ArgumentTypeError(f'there is no {what} "{word}"{near(word, names)}')
        return word

    return read


def count(word: str) -> int:
    """A whole number from 1 on."""
    if not word.isascii() or not word.isdigit() or int(word) < 1:
        raise argparse.ArgumentTypeError(f'"{word}" is no whole number from 1 on')
    return int(word)


def span(what: str, least: int) -> Callable[[str], tuple[int, int]]:
    """A reader of one number, or of a first and a last one, as 3-7."""

    def read(word: str) -> tuple[int, int]:
        first, dash, last = word.partition("-")
        numbers = [first, last if dash else first]
        if not all(it.isascii() and it.isdigit() and int(it) >= least for it in numbers):
            raise argparse.ArgumentTypeError(
                f'"{word}" is no {what} from {least} on, and none to another, as 3-7'
            )
        if int(numbers[0]) > int(numbers[1]):
            raise argparse.ArgumentTypeError(f'"{word}" ends before it begins')
        return int(numbers[0]), int(numbers[1])

    return read


def shaped(names: Sequence[str]) -> str:
    return "{" + ",".join(names) + "}"


class Maker:
    """Makes the reader of the words."""

    def __init__(self, acts: dict[str, Callable[[argparse.Namespace], int]]) -> None:
        self.acts = acts
        self.top = Reader(
            prog="lazbendix",
            description=ABOUT,
            epilog="lazbendix COMMAND --help has examples. " + STATUSES,
        )
        self.top.add_argument(
            "--version", action="store_true", help="print the version, also behind a command"
        )
        self.commands: Any = self.top.add_subparsers(
            dest="command", metavar="COMMAND", parser_class=Reader
        )

    def command(
        self, name: str, about: str, examples: Sequence[str], more: str = ""
    ) -> argparse.ArgumentParser:
        """A command that is made by the act of its name."""
        shown = "\n".join(["examples:", *(f"  {example}" for example in examples)])
        text = about[0].upper() + about[1:] + "." + (f"\n\n{more}" if more else "")
        made: argparse.ArgumentParser = self.commands.add_parser(
            name, help=about, description=text, epilog=shown
        )
        made.set_defaults(act=self.acts[name], examples=examples)
        return made

    def day(self, to: argparse.ArgumentParser, needed: bool = False) -> None:
        """A script, and whether it is YAML."""
        how = "a script, a file or - for standard input"
        if needed:
            to.add_argument("day", metavar="DAY.json", help=how)
        else:
            to.add_argument("day", metavar="DAY.json", nargs="?", default="-", help=how)
        to.add_argument("--yaml", action="store_true", help="the script is YAML (PyYAML is wanted)")

    def mode(self, to: argparse.ArgumentParser) -> None:
        """A model and a scheduler."""
        models = ", ".join(f"{name} {word}" for name, word in MODEL_WORDS.items())
        to.add_argument(
            "--model",
            action=Once,
            type=one_of("model", MODELS),
            metavar=shaped(list(MODEL_WORDS)),
            help=f"{models}; ev by default",
        )
        to.add_argument(
            "--scheduler",
            action=Once,
            type=one_of("scheduler", SCHEDULERS),
            metavar=shaped(SCHEDULERS),
            help="fcfs first come first served (the default), jit just in time, timeline; the last "
            "two with ev alone",
        )

    def played(self, name: str) -> None:
        """A command that plays a day through the program."""
        more = (
            "A comment from // to the end of its line, and $schema, are taken out before the "
            "program reads the script."
        )
        made = self.command(name, DAY_ABOUT[name], DAY_EXAMPLES[name], more)
        self.day(made)
        self.mode(made)
        made.add_argument(
            "--trace", action=Once, nargs=0, help="print the history of each window too"
        )

    def judged(self) -> None:
        """The commands that judge: of a record, and of a made-up day."""
        made = self.command(
            "check",
            "check a record: whether its script, in the order that it prints, gives what it prints",
            [
                "lazbendix check day.json day.record",
                "(cat day.json; echo; echo %%; cat day.record) | lazbendix check",
                "lazbendix replay day.json | lazbendix check day.json -",
            ],
            "Of one input the first line that is %% divides script and record.",
        )
        made.add_argument(
            "day",
            metavar="DAY.json",
            nargs="?",
            default="-",
            help="a script, or script and record in one",
        )
        made.add_argument("record", metavar="RECORD", nargs="?", help="the record, a file or -")
        made.add_argument("--json", action="store_true", help="print the verdict as JSON")
        made = self.command(
            "trial", "play and check a made-up day of so many windows", ["lazbendix trial 12"]
        )
        made.add_argument("windows", metavar="N", help="1 to 288")

    def looked(
        self, name: str, about: str, examples: Sequence[str], more: str = ""
    ) -> argparse.ArgumentParser:
        """A command that looks into a day: its script, and its record or a replay."""
        made = self.command(name, about, examples, more)
        self.day(made, needed=True)
        made.add_argument("record", metavar="RECORD", nargs="?", help=RECORD_HELP)
        self.mode(made)
        return made

    def chosen(self, to: argparse.ArgumentParser) -> None:
        """Which part of a day is shown."""
        to.add_argument(
            "--window",
            type=span("window", 1),
            metavar="K[-L]",
            help="the window K alone, or those from K to L",
        )
        to.add_argument("--run", type=count, metavar="R", help="the run R of each window alone")
        to.add_argument("--device", metavar="NAME", help="the runs that name this device alone")
        to.add_argument(
            "--aborted", action="store_true", help="the runs that were taken back alone"
        )

    def make(self) -> Reader:
        """The reader of all words."""
        for name in DAY_ABOUT:
            self.played(name)
        self.judged()
        made = self.command(
            "explain",
            "report every mistake of a script, with line, column and the nearest name, and what "
            "may "
            "surprise",
            ["lazbendix explain day.json", "lazbendix explain --json - < day.json"],
        )
        self.day(made)
        made.add_argument(
            "--scheduler",
            action=Once,
            type=one_of("scheduler", SCHEDULERS),
            metavar=shaped(SCHEDULERS),
            default="fcfs",
            help="by jit and timeline also what may surprise about leases; fcfs by default",
        )
        made.add_argument("--json", action="store_true", help="print mistakes and notes as JSON")
        made = self.looked(
            "summary",
            "report a day in sentences: who waited, who was taken back and why, what is down",
            [
                "lazbendix summary day.json",
                "lazbendix summary --short day.json day.record",
                "lazbendix summary --window 3 --lines day.json day.record",
                "lazbendix summary --aborted --json day.json day.record",
            ],
        )
        self.chosen(made)
        made.add_argument(
            "--lines", action="store_true", help="name the lines of the record behind each sentence"
        )
        form = made.add_mutually_exclusive_group()
        form.add_argument(
            "--short",
            action="store_true",
            help="a line for each window, each run that was taken back, and devices that failed",
        )
        form.add_argument("--json", action="store_true", help="print the day as JSON")
        made = self.looked(
            "view",
            "make a page in which one looks into a day",
            [
                "lazbendix view day.json > day.html",
                "lazbendix view --window 12-24 day.json day.record > part.html",
            ],
        )
        self.chosen(made)
        made.add_argument(
            "--title", help="the day's name; the script's file name where it is left out"
        )
        made = self.looked(
            "picture",
            "draw a day as an SVG",
            [
                "lazbendix picture day.json > day.svg",
                "lazbendix picture --window 3 --aborted day.json day.record > window.svg",
            ],
        )
        self.chosen(made)
        made.add_argument(
            "--title", help="the headline; the script's file name where it is left out"
        )
        made.add_argument(
            "--columns",
            type=count,
            default=36,
            metavar="N",
            help="how many steps stand beside each other; 36 by default",
        )
        made.add_argument("--all", action="store_true", help="also devices that no run names")
        made = self.looked(
            "trace",
            "write a day as trace events, for ui.perfetto.dev and chrome://tracing",
            [
                "lazbendix trace day.json > day.trace.json",
                "lazbendix trace --axis ms day.json day.record > day.trace.json",
            ],
        )
        self.chosen(made)
        made.add_argument(
            "--axis",
            type=one_of("axis", ("step", "ms")),
            metavar="{step,ms}",
            default="step",
            help="a step is one ms (the default), or the moments of the record",
        )
        self.compared()
        self.next_day()
        self.others()
        return self.top

    def compared(self) -> None:
        """The command that compares records, models, schedulers or seeds."""
        made = self.command(
            "compare",
            "compare what came of a day: two records of it, or its replays under models, "
            "schedulers "
            "or seeds",
            [
                "lazbendix compare --models day.json",
                "lazbendix compare --seeds 1-5 --model psv day.json",
                "lazbendix compare day.json monday.record tuesday.record",
            ],
            "Of models it ends in the one that suits the home, and why.",
        )
        self.day(made, needed=True)
        made.add_argument(
            "records",
            metavar="RECORD",
            nargs="*",
            help="records of the day, files or -; two or more",
        )
        which = made.add_mutually_exclusive_group()
        which.add_argument(
            "--models", action="store_true", help="replay it under ev, psv, gsv and wv"
        )
        which.add_argument(
            "--schedulers", action="store_true", help="replay it under ev by fcfs, jit and timeline"
        )
        which.add_argument(
            "--seeds",
            type=span("seed", 0),
            metavar="M-N",
            help="replay it with each of these seeds in all its windows",
        )
        self.mode(made)
        made.add_argument("--json", action="store_true", help="print the comparison as JSON")

    def next_day(self) -> None:
        made = self.looked(
            "next",
            "make the script of the next day, from where a record left the home",
            [
                "lazbendix next day.json day.record > next.json",
                "lazbendix next --rest day.json cut.record > rest.json",
            ],
        )
        which = made.add_mutually_exclusive_group()
        which.add_argument(
            "--days", type=count, metavar="N", help="by how many days the windows are later"
        )
        which.add_argument(
            "--rest", action="store_true", help="the rest of the day, where the record was cut"
        )
        made.add_argument(
            "--silent",
            type=count,
            default=1,
            metavar="CALLS",
            help="how many first calls a device that was left down does not answer; 1 by default",
        )

    def others(self) -> None:
        self.command(
            "doctor",
            "report what is installed, and whether the program plays as the reference does",
            ["lazbendix doctor"],
        )
        self.command("version", "print the version, and which program plays", ["lazbendix version"])
        made = self.command(
            "completions",
            "print the completions for a shell",
            [
                "lazbendix completions bash > ~/.local/share/bash-completion/completions/lazbendix",
                "lazbendix completions zsh > ~/.zfunc/_lazbendix",
                "lazbendix completions fish > ~/.config/fish/completions/lazbendix.fish",
            ],
        )
        made.add_argument(
            "shell",
            type=one_of("shell", ("bash", "zsh", "fish")),
            metavar="{bash,zsh,fish}",
            help="the shell",
        )
        self.command(
            "man", "print the man page", ["lazbendix man > lazbendix.1", "lazbendix man | man -l -"]
        )
        made = self.command(
            "help", "print this, or the help of a command", ["lazbendix help replay"]
        )
        made.add_argument("about", metavar="COMMAND", nargs="?", help="a command")


def why_no_mode(command: str, model: str | None, scheduler: str | None, trace: bool) -> str:
    """Why a command does not take a model, a scheduler or a trace that there are."""
    if command == "rooms" and trace:
        return "rooms has no trace: entries of several hubs have no common order"
    if command == "rooms" and model == "wv":
        return "rooms does not take the weak model, which claims no order"
    return f"{scheduler} goes with --model ev alone, and not with {model}"


def is_file(word: str) -> bool:
    """Whether a word that was to be a command is rather a file."""
    return os.path.exists(word) or "/" in word or "." in word
