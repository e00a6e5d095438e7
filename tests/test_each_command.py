"""Every command in turn: its help, its refusal of other words, a day from a file, from a pipe and
from a terminal, a file that is not there, a script that is refused, and a reader that goes."""
import os
import pty
import subprocess
import sys
import tempfile
import unittest

from lazbendix import shells
from lazbendix.command import reader
from tests.places import HAS_PROGRAM, PYTHON, called, environment, errors, example, example_bytes

LIGHT = example("one-light.json")
DAY, RECORD = example_bytes("one-light.json"), example_bytes("one-light.record")
# what a command is called with before the day, and whether it takes one
TAKE_A_DAY = {
    "replay": ["replay"],
    "run": ["run"],
    "watch": ["watch"],
    "keep": ["keep"],
    "rooms": ["rooms"],
    "explain": ["explain"],
    "compare": ["compare", "--models"],
    "summary": ["summary"],
    "view": ["view"],
    "picture": ["picture"],
    "trace": ["trace"],
    "next": ["next"],
}
TAKE_NONE = {
    "trial": ["trial", "1"],
    "version": ["version"],
    "completions": ["completions", "bash"],
    "man": ["man"],
    "help": ["help"],
}
WHOLE = DAY + b"\n%%\n" + RECORD


class EachCommand(unittest.TestCase):
    def setUp(self) -> None:
        folder = tempfile.TemporaryDirectory()  # `keep` has its journal there
        self.addCleanup(folder.cleanup)
        self.folder = folder.name

    def call(self, *words: str, data: bytes = b"") -> "subprocess.CompletedProcess[bytes]":
        journal = os.path.join(self.folder, "home.journal")
        if os.path.exists(journal):
            os.remove(journal)
        return called(*words, data=data, cwd=self.folder)

    def test_each_is_in_one_of_the_tables(self) -> None:
        names = {*TAKE_A_DAY, *TAKE_NONE, "check", "doctor"}
        self.assertEqual(names, {*shells.commands_of(reader())})

    def test_help(self) -> None:
        for name in shells.commands_of(reader()):
            with self.subTest(command=name):
                asked, named = self.call(name, "--help"), self.call("help", name)
                self.assertEqual((asked.returncode, asked.stderr), (0, b""))
                self.assertTrue(asked.stdout.startswith(f"usage: lazbendix {name}".encode()))
                self.assertIn(b"\nexamples:\n", asked.stdout)
                self.assertEqual((named.returncode, named.stdout), (0, asked.stdout))

    def test_version(self) -> None:
        wanted = self.call("version").stdout
        self.assertTrue(wanted.startswith(b"lazbendix "))
        for name in shells.commands_of(reader()):
            with self.subTest(command=name):
                call = self.call(name, "--version")
                self.assertEqual((call.returncode, call.stdout, call.stderr), (0, wanted, b""))

    def test_other_words(self) -> None:
        for name in shells.commands_of(reader()):
            with self.subTest(command=name):
                call = self.call(name, "--nonsense")
                self.assertEqual((call.returncode, call.stdout), (2, b""))
                self.assertEqual(call.stderr.split(b"\n")[0], b"words")
                self.assertIn(b"lazbendix", call.stderr)

    def test_a_day_from_a_file_and_from_a_pipe(self) -> None:
        """Both say the same, where the file has the name by which a piped script is called."""
        with open(os.path.join(self.folder, "script"), "wb") as file:
            file.write(DAY)
        for name, words in TAKE_A_DAY.items():
            with self.subTest(command=name):
                named, piped = self.call(*words, "script"), self.call(*words, "-", data=DAY)
                self.assertEqual((named.returncode, piped.returncode), (0, 0))
                self.assertTrue(named.stdout)
                self.assertEqual(named.stdout, piped.stdout)
                self.assertEqual(errors(named), errors(piped))

    def test_a_check_from_files_and_from_a_pipe(self) -> None:
        for call in (
            self.call("check", LIGHT, example("one-light.record")),
            self.call("check", LIGHT, "-", data=RECORD),
            self.call("check", "-", data=WHOLE),
            self.call("check", data=WHOLE),
        ):
            self.assertEqual((call.returncode, call.stdout, errors(call)), (0, b"agrees\n", ""))

    def test_a_check_of_a_script_that_is_refused(self) -> None:
        wrong = WHOLE.replace(b'"set"', b'"sett"')
        call = self.call("check", "-", data=wrong)
        self.assertEqual((call.returncode, call.stdout), (1, b""))
        self.assertIn("script: shape command 1.1", errors(call))
        self.assertIn('did you mean "set"?', errors(call))

    def test_a_check_that_is_typed(self) -> None:
        told, status = self.on_terminal("check", "-", typed=b"{\n%%\n\x04")
        self.assertIn(b"Ctrl-D ends it", told)
        self.assertIn(b"not json", told)
        self.assertEqual(status, 1)

    @unittest.skipUnless(HAS_PROGRAM, "doctor looks for the program")
    def test_doctor_on_a_terminal(self) -> None:
        piped, (told, status) = self.call("doctor"), self.on_terminal("doctor", NO_COLOR="1")
        self.assertEqual((status, told), (piped.returncode, piped.stdout))
        self.assertIn(b"\x1b[", self.on_terminal("doctor")[0])

    def test_those_without_a_day(self) -> None:
        for name, words in TAKE_NONE.items():
            with self.subTest(command=name):
                call = self.call(*words)
                self.assertEqual((call.returncode, errors(call)), (0, ""))
                self.assertTrue(call.stdout)

    def test_a_file_that_is_not_there(self) -> None:
        for name, words in {**TAKE_A_DAY, "check": ["check"]}.items():
            with self.subTest(command=name):
                call = self.call(*words, "/no/such/day.json")
                self.assertEqual((call.returncode, call.stdout), (3, b""))
                self.assertEqual(errors(call).split("\n")[0], "read")
                self.assertIn("/no/such/day.json", errors(call))

    def test_a_script_that_is_refused(self) -> None:
        wrong = DAY.replace(b'"do": "set"', b'"do": "sett"').replace(b'"do":"set"', b'"do":"sett"')
        self.assertNotEqual(wrong, DAY)
        for name, words in TAKE_A_DAY.items():
            with self.subTest(command=name):
                call = self.call(*words, "-", data=wrong)
                told = call.stdout.decode() + errors(call)
                self.assertEqual(call.returncode, 1)
                self.assertIn("script: shape command 1.1", told)
                self.assertIn('did you mean "set"?', told)

    def on_terminal(self, *words: str, typed: bytes = b"", **more: str) -> tuple[bytes, int]:
        """What a call writes whose three streams are a terminal, and its status."""
        child, terminal = pty.fork()
        if child == 0:
            os.chdir(self.folder)
            words = (sys.executable, "-m", "lazbendix", *words)
            more |= {"PYTHONPATH": os.path.realpath(PYTHON)}
            os.execve(sys.executable, words, environment(**more))
        os.write(terminal, typed)
        told = bytearray()
        while True:
            try:
                piece = os.read(terminal, 4096)
            except OSError:
                break
            if not piece:
                break
            told += piece
        status = os.waitstatus_to_exitcode(os.waitpid(child, 0)[1])
        return bytes(told).replace(b"\r\n", b"\n"), status

    def test_a_day_that_is_typed(self) -> None:
        """On a terminal each says that it waits, and how one ends it; what it then says of the
        script stands behind."""
        for name, words in TAKE_A_DAY.items():
            with self.subTest(command=name):
                told, status = self.on_terminal(*words, "-", typed=b"{\n\x04")
                self.assertIn(b"Ctrl-D ends it", told)
                self.assertIn(b"not json", told)
                self.assertEqual(status, 1)

    @unittest.skipUnless(HAS_PROGRAM, "the reference shows no progress")
    def test_the_progress_of_watch(self) -> None:
        """As the program shows it, which is called beside it."""
        last = b"window 1 of 1: 1 committed, 0 aborted"
        for variables, ending in (
            (dict[str, str](), b""),
            ({"LAZBENDIX_PROGRESS": "1"}, last + b"\n"),
        ):
            call = called("watch", LIGHT, env=environment(**variables))
            self.assertTrue(call.stderr.endswith(ending) and bool(call.stderr) == bool(ending))
        told, _ = self.on_terminal("watch", LIGHT)
        self.assertIn(b"\n" + last + b"\n", told)
        terminal, stderr = pty.openpty()
        words = [sys.executable, "-m", "lazbendix", "watch", LIGHT]
        subprocess.run(words, stdout=subprocess.DEVNULL, stderr=stderr, env=environment())
        os.close(stderr)
        self.assertTrue(os.read(terminal, 4096).endswith(b"\r" + last + b"\x1b[K\r\n"))

    def test_a_terminal_of_those_without_a_day(self) -> None:
        for name, words in TAKE_NONE.items():
            with self.subTest(command=name):
                told, status = self.on_terminal(*words)
                self.assertEqual(status, 0)
                self.assertNotIn(b"Ctrl-D", told)

    def test_a_reader_that_goes(self) -> None:
        with_days = {name: [*words, LIGHT] for name, words in TAKE_A_DAY.items()}
        others = {"check": ["check", LIGHT, example("one-light.record")], "doctor": ["doctor"]}
        for name, words in {**with_days, **TAKE_NONE, **others}.items():
            with self.subTest(command=name):
                reading, writing = os.pipe()
                os.close(reading)
                call = subprocess.run(
                    [sys.executable, "-m", "lazbendix", *words],
                    stdout=writing,
                    stderr=subprocess.PIPE,
                    cwd=self.folder,
                    env=environment(PYTHONPATH=os.path.realpath(PYTHON)),
                )
                os.close(writing)
                self.assertEqual((errors(call), call.returncode), ("", 4))


if __name__ == "__main__":
    unittest.main()
