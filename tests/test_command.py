"""The words of the command: help, versions, files, pipes, terminals and refusals. What is wanted
comes from docs/FORMATS.md, the examples and their stored records."""
import json
import os
import pty
import shutil
import subprocess
import sys
import tempfile
import unittest

from lazbendix import about, shells
from lazbendix.command import ACTS, reader
from tests.places import (
    HAS_PROGRAM,
    PYTHON,
    TOP,
    called,
    environment,
    errors,
    example,
    example_bytes,
)

COMMANDS = (
    "replay",
    "run",
    "watch",
    "keep",
    "rooms",
    "check",
    "trial",
    "explain",
    "compare",
    "summary",
    "view",
    "picture",
    "trace",
    "next",
    "doctor",
    "version",
    "completions",
    "man",
    "help",
)
LIGHT = example("one-light.json")
RECORD = example_bytes("one-light.record")
ABSOLUTE = environment(PYTHONPATH=os.path.realpath(PYTHON))


class Words(unittest.TestCase):
    def test_every_command_has_help_with_examples(self) -> None:
        commands = shells.commands_of(reader())
        self.assertEqual(sorted(commands), sorted(COMMANDS))
        for name, made in commands.items():
            told = made.format_help()
            self.assertIn("usage: lazbendix " + name, told)
            self.assertIn(
                "examples:\n  lazbendix " + name if name != "check" else "examples:", told
            )

    def test_help_of_the_command(self) -> None:
        for words in (["--help"], ["-h"], ["help"]):
            call = called(*words)
            self.assertEqual((call.returncode, call.stderr), (0, b""))
            for name in ACTS:
                self.assertIn(f"    {name}", call.stdout.decode())
        self.assertIn(b"--scheduler", called("help", "replay").stdout)
        self.assertIn(b"--scheduler", called("replay", "--help").stdout)

    def test_version(self) -> None:
        with open(os.path.join(TOP, "VERSION"), encoding="utf-8") as file:
            wanted = f"lazbendix {file.read().strip()}\n"
        for words in (["version"], ["--version"]):
            call = called(*words)
            self.assertEqual(call.returncode, 0)
            self.assertTrue(call.stdout.decode().startswith(wanted))
        self.assertEqual(f"lazbendix {about.version()}\n", wanted)

    def test_other_words(self) -> None:
        """Each is refused with the line `words` and status 2, and with what helps."""
        cases: list[tuple[list[str], str]] = [
            ([], "a command is wanted"),
            (["replya"], 'did you mean "replay"?'),
            (["mine.json"], "lazbendix replay mine.json"),
            (["replay", "--mod", "gsv"], "--mod"),
            (["replay", "--model"], "--model"),
            (["replay", "--model", "foo"], 'no model "foo"'),
            (["replay", "--model", "gsv", "--model", "gsv"], "given twice"),
            (["replay", "--model", "gsv", "--scheduler", "jit"], "jit goes with --model ev alone"),
            (["replay", "--scheduler", "fcsf"], 'did you mean "fcfs"?'),
            (["rooms", "--trace"], "rooms has no trace"),
            (["rooms", "--model", "wv"], "weak"),
            (["check", "--trace"], "--trace"),
            (["trial", "007"], "007"),
            (["trial", "289"], "289"),
            (["trial"], "N"),
            (["check", "-", "-"], "both"),
            (["summary", "-", "-"], "both"),
            (["summary", "--window", "0", LIGHT], '"0"'),
            (["help", "replya"], 'did you mean "replay"?'),
        ]
        for words, told in cases:
            with self.subTest(words=words):
                call = called(*words)
                self.assertEqual((call.returncode, call.stdout), (2, b""))
                self.assertEqual(call.stderr.decode().split("\n")[0], "words")
                self.assertIn(told, call.stderr.decode())

    def test_completions_and_man_page(self) -> None:
        for shell, checker in (
            ("bash", ["bash", "-n"]),
            ("zsh", ["zsh", "-n"]),
            ("fish", ["fish", "-n"]),
        ):
            call = called("completions", shell)
            self.assertEqual(call.returncode, 0)
            for name in COMMANDS:
                self.assertIn(name, call.stdout.decode())
            if shutil.which(checker[0]):
                self.assertEqual(
                    subprocess.run([*checker, "/dev/stdin"], input=call.stdout).returncode, 0
                )
        if shutil.which("bash"):
            made = called("completions", "bash").stdout.decode()
            script = (
                made + "\nCOMP_WORDS=(lazbendix replay --model p); COMP_CWORD=3; _lazbendix; echo "
                "${COMPREPLY[*]}"
            )
            told = subprocess.run(["bash", "-c", script], capture_output=True, text=True).stdout
            self.assertEqual(told, "psv\n")
        page = called("man").stdout.decode()
        self.assertTrue(page.startswith('.TH LAZBENDIX 1 "" "lazbendix '))
        for name in COMMANDS:
            self.assertIn(f".SS {name}\n", page)


class Played(unittest.TestCase):
    def test_files_and_pipes(self) -> None:
        calls: list[tuple[list[str], bytes]] = [
            ([LIGHT], b""),
            (["-"], example_bytes("one-light.json")),
            ([], example_bytes("one-light.json")),
        ]
        for words, data in calls:
            call = called("replay", *words, data=data)
            self.assertEqual((call.returncode, call.stdout, errors(call)), (0, RECORD, ""))

    def test_the_stored_records_of_the_examples(self) -> None:
        """As examples/README.md has them, whose words `head` names."""
        for name in ("leaving", "failing", "overwritten", "thermometer"):
            wanted = example_bytes(f"{name}.record")
            _, model, scheduler = wanted.split(b"\n")[1].decode().split(" ")
            trace = ["--trace"] if b"\n# " in wanted else []
            call = called(
                "replay",
                *trace,
                "--model",
                model,
                "--scheduler",
                scheduler,
                example(f"{name}.json"),
            )
            self.assertEqual((call.returncode, call.stdout, errors(call)), (0, wanted, ""))

    def test_the_other_commands_that_play(self) -> None:
        total = b"total windows 1 runs 1 committed 1 aborted 0\n"
        self.assertEqual(called("run", LIGHT).stdout, RECORD)
        self.assertEqual(called("rooms", LIGHT).stdout, RECORD)
        self.assertEqual(called("watch", LIGHT).stdout, RECORD + total.replace(b"total", b"board"))
        with tempfile.TemporaryDirectory() as folder:
            first = called("keep", LIGHT, cwd=folder)
            again = called("keep", LIGHT, cwd=folder)
        self.assertEqual(first.stdout, RECORD.replace(b"fcfs\n", b"fcfs\nkept 0\n"))
        self.assertEqual(
            again.stdout,
            b"safehome day\nmodel ev fcfs\nkept 1\ntotal windows 0 runs 0 committed 0 aborted 0\n",
        )

    def test_a_trial(self) -> None:
        call = called("trial", "2")
        self.assertRegex(
            call.stdout.decode(),
            r"^trial 2 windows 2 runs 128 committed \d+ aborted \d+ agree 2\n$",
        )

    def test_check(self) -> None:
        with tempfile.NamedTemporaryFile() as file:
            file.write(RECORD)
            file.flush()
            self.assertEqual(called("check", LIGHT, file.name).stdout, b"agrees\n")
        day = example_bytes("one-light.json")
        whole = day + b"\n%%\n" + RECORD
        crossed = whole.replace(b"\n", b"\r\n")
        for data in (whole, crossed, day.replace(b"{", b"{ // mine\n", 1) + b"\n%%\n" + RECORD):
            call = called("check", data=data)
            self.assertEqual((call.returncode, call.stdout), (0, b"agrees\n"), errors(call))
        altered = called("check", LIGHT, "-", data=RECORD.replace(b"lamp=on", b"lamp=off"))
        self.assertEqual((altered.returncode, altered.stdout), (7, b""))
        self.assertEqual(errors(altered).split("\n")[0], "check: window 1 device lamp")
        self.assertIn("record:6: home lamp=off\n", errors(altered))
        told = called("check", "--json", LIGHT, "-", data=RECORD.replace(b"lamp=on", b"lamp=off"))
        wanted = {
            "agrees": False,
            "status": 7,
            "window": 1,
            "place": "device lamp",
            "line": "check: window 1 device lamp",
        }
        self.assertEqual((told.returncode, json.loads(told.stdout)), (7, wanted))
        self.assertTrue(
            json.loads(called("check", "--json", LIGHT, "-", data=RECORD).stdout)["agrees"]
        )

    def test_what_cannot_be_read(self) -> None:
        for words in (["replay"], ["explain"], ["summary"], ["check"]):
            call = called(*words, "/no/such/file")
            self.assertEqual((call.returncode, errors(call).split("\n")[0]), (3, "read"))
            self.assertIn("/no/such/file", errors(call))

    def test_an_example_of_the_package(self) -> None:
        """Who is not at the top of the repository reads where the package has the day."""
        with tempfile.TemporaryDirectory() as pages:
            day = os.path.join(pages, "pages", "examples", "mine.json")
            os.makedirs(os.path.dirname(day))
            shutil.copy(LIGHT, day)
            code = "import sys; from lazbendix import command as it; it.PAGES = 'pages'; "
            for name, told in (("mine", " (the package has pages/examples/mine.json)"), ("x", "")):
                words = [sys.executable, "-c", f"{code}it.main(['replay', 'examples/{name}.json'])"]
                call = subprocess.run(words, cwd=pages, env=ABSOLUTE, capture_output=True)
                wanted = f"examples/{name}.json: No such file or directory{told}\n"
                self.assertTrue(call.stderr.decode().endswith(wanted), call.stderr)

    def test_rooms_that_cross(self) -> None:
        call = called("rooms", example("leaving.json"))
        self.assertEqual((call.returncode, errors(call).split("\n")[0]), (11, "cross room 1.1"))
        self.assertIn("lazbendix run", errors(call))

    def test_a_program_that_is_not_there(self) -> None:
        call = called("replay", LIGHT, env=environment(LAZBENDIX_PROGRAM="/no/such/program"))
        self.assertEqual(call.returncode, 127)
        self.assertIn("/no/such/program", call.stderr.decode())

    def test_the_reference_plays_where_no_program_is(self) -> None:
        """The package is copied, so that none is beside it, and none is on the path."""
        with tempfile.TemporaryDirectory() as folder:
            package = os.path.join(folder, "lazbendix")
            shutil.copytree(os.path.join(PYTHON, "lazbendix"), package)
            reference = os.path.join(PYTHON, "..", "reference")
            shutil.copytree(reference, os.path.join(package, "reference"), dirs_exist_ok=True)
            variables = {"PYTHONPATH": folder, "PATH": "/nowhere"}
            call = called("replay", LIGHT, env=variables, cwd=folder)
        self.assertEqual((call.returncode, call.stdout), (0, RECORD))
        self.assertIn(b"the reference plays", call.stderr)

    @unittest.skipUnless(HAS_PROGRAM, "no proved program is built")
    def test_doctor(self) -> None:
        call = called("doctor")
        self.assertEqual(call.returncode, 0)
        self.assertIn("each as by the reference", call.stdout.decode())


class Terminals(unittest.TestCase):
    def on_terminal(self, words: list[str], typed: bytes = b"", **more: str) -> tuple[bytes, int]:
        """What a call writes whose three streams are a terminal, and its status."""
        child, terminal = pty.fork()
        if child == 0:
            os.chdir(PYTHON)
            os.execve(
                sys.executable, [sys.executable, "-m", "lazbendix", *words], environment(**more)
            )
        os.write(terminal, typed)
        told = bytearray()
        while True:
            try:
                piece = os.read(terminal, 4096)
            except OSError:
                break
            if not piece:
                break
            told += piece
        return bytes(told).replace(b"\r\n", b"\n"), os.waitstatus_to_exitcode(
            os.waitpid(child, 0)[1]
        )

    def test_a_terminal_that_is_waited_for(self) -> None:
        told, status = self.on_terminal(["replay"], b"{\n\x04")
        self.assertIn(b"Ctrl-D ends it", told)
        self.assertIn(b"script: not json", told)
        self.assertEqual(status, 1)

    def test_colours(self) -> None:
        shown, _ = self.on_terminal(["explain", example("failing.json")])
        plain, _ = self.on_terminal(["explain", example("failing.json")], NO_COLOR="1")
        self.assertIn(b"\x1b[", shown)
        self.assertNotIn(b"\x1b[", plain)
        self.assertNotIn(b"\x1b[", called("explain", example("failing.json")).stdout)

    def test_a_reader_that_goes_is_not_told_of(self) -> None:
        for words in (
            ["replay", "--trace", LIGHT],
            ["explain", LIGHT],
            ["view", LIGHT],
            ["summary", LIGHT],
            ["version"],
        ):
            reading, writing = os.pipe()
            os.close(reading)
            call = subprocess.run(
                [sys.executable, "-m", "lazbendix", *words],
                stdout=writing,
                stderr=subprocess.PIPE,
                env=environment(),
            )
            os.close(writing)
            self.assertEqual((errors(call), call.returncode), ("", 4), words)


class Tools(unittest.TestCase):
    def test_summary(self) -> None:
        """The sentences of README's day, by its stored script."""
        call = called("summary", example("leaving.json"))
        for words in (
            "Run 1 (leave) was taken back: its command 3, is window shut?, found window at open.",
            "Undone: heat was driven back to 21.",
            "run 2 (read)",
            "1 window, 2 runs, 1 committed, 1 taken back",
        ):
            self.assertIn(words, call.stdout.decode())
        facts = json.loads(called("summary", "--json", "--aborted", example("leaving.json")).stdout)
        self.assertEqual([run["run"] for run in facts["windows"][0]["runs"]], [1])
        self.assertEqual(facts["windows"][0]["runs"][0]["cause"], "refuted 3 found open")
        self.assertEqual(facts["windows"][0]["home"]["heat"], {"value": "21", "up": True})
        self.assertIn(
            "none with the number 2",
            errors(called("summary", "--window", "2", example("leaving.json"))),
        )
        self.assertIn(
            'no device "lapm"',
            errors(called("summary", "--device", "lapm", example("leaving.json"))),
        )

    def test_a_short_summary(self) -> None:
        """Windows, what was taken back, and the total: no run that committed, no order, no home."""
        told = called("summary", "--short", example("leaving.json")).stdout.decode()
        lines = [line for line in told.split("\n") if line]
        self.assertTrue(lines[2].startswith("Window 1 of 1, 2021-04-26T08:10:00: 2 runs; 1 com"))
        self.assertTrue(lines[3].startswith("  Run 1 (leave) was taken back: its command 3, "))
        self.assertEqual(lines[4:], ["In all: 1 window, 2 runs, 1 committed, 1 taken back."])
        failing = called("summary", "--short", example("failing.json")).stdout.decode()
        self.assertIn("  Devices: ", failing)
        self.assertEqual(called("summary", "--short", "--json", LIGHT).returncode, 2)

    def test_summary_of_a_named_record(self) -> None:
        record = example_bytes("failing.record")
        named = called("summary", example("failing.json"), example("failing.record"))
        piped = called("summary", example("failing.json"), "-", data=record)
        self.assertEqual((named.returncode, named.stdout), (0, piped.stdout))

    def test_page_picture_trace_and_next(self) -> None:
        leaving = example("leaving.json")
        self.assertTrue(called("view", leaving).stdout.startswith(b"<!doctype html>"))
        with open(os.path.join(TOP, "docs", "pictures", "leaving.svg"), "rb") as file:
            stored = file.read()
        self.assertEqual(stored.count(b"<rect"), called("picture", leaving).stdout.count(b"<rect"))
        events = json.loads(called("trace", leaving).stdout)["traceEvents"]
        self.assertIn(
            "run 1 leave",
            [event["args"]["name"] for event in events if event["name"] == "thread_name"],
        )
        made = json.loads(called("next", leaving).stdout)
        self.assertEqual(made["windows"][0]["at"], "2021-04-27T08:10:00")


if __name__ == "__main__":
    unittest.main()
