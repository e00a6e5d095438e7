"""The hub as a process: killed, stopped, asked by its command."""
import os
import subprocess
import sys
import tempfile
import unittest

from lazbendix_hub.mosquitto import find_mosquitto, free_port
from tests.soak import HOME, soak
from tests.stage import TOP


def command(*words: str) -> "subprocess.CompletedProcess[str]":
    """What the command says."""
    return subprocess.run([sys.executable, "-m", "lazbendix_hub", *words], capture_output=True,
                          text=True, timeout=60)


class Killed(unittest.TestCase):
    def test_a_soak(self) -> None:
        found = soak(250, 6, 2)
        self.assertEqual((found["status"], found["lost"], found["strayed"]), (0, [], []), found)
        self.assertRegex(found["check"], r"^\d+ windows with \d+ runs agree$")
        self.assertGreater(found["outcomes"]["committed"], 80)


class Command(unittest.TestCase):
    def setUp(self) -> None:
        self.room = tempfile.TemporaryDirectory()
        self.path = os.path.join(self.room.name, "home.yaml")
        with open(self.path, "w", encoding="utf-8") as file:
            file.write(HOME)

    def tearDown(self) -> None:
        self.room.cleanup()

    def test_check(self) -> None:
        ran = command("check", self.path)
        self.assertEqual((ran.returncode, "fine; 8 devices, 6 routines" in ran.stdout), (0, True))
        with open(self.path, "a", encoding="utf-8") as file:
            file.write("  bad: {do: [{set: lmap, to: 3}]}\n")
        ran = command("check", self.path)
        self.assertEqual(ran.returncode, 1)
        self.assertRegex(ran.stderr, r"home.yaml: line 21: .*do you mean `lamp`\?")
        self.assertEqual(command("run", self.path).returncode, 1)
        self.assertEqual(command("check", "/none.yaml").returncode, 1)
        with open(self.path, "wb") as raw:
            raw.write(b"\xff\xfe\x00")
        self.assertEqual(command("check", self.path).returncode, 1)

    def test_a_broker_that_is_not_there(self) -> None:
        with open(self.path, "a", encoding="utf-8") as file:
            file.write(f"broker: {{port: {free_port()}}}\npage: {{port: {free_port()}}}\n")
        words = [sys.executable, "-m", "lazbendix_hub", "run", self.path, "--plain", "--folder",
                 os.path.join(self.room.name, "data")]
        with subprocess.Popen(words, stderr=subprocess.PIPE, text=True) as hub:
            assert hub.stderr is not None
            self.assertRegex(hub.stderr.readline(), "the broker at 127.0.0.1, port .*, does not")
            hub.terminate()
            self.assertEqual(hub.wait(60), 0)

    def test_routines(self) -> None:
        ran = command("routines", self.path)
        self.assertEqual(ran.returncode, 0)
        self.assertIn("leave\n    check window to shut\n", ran.stdout)

    def test_why(self) -> None:
        self.assertEqual(command("why", "last", "--folder", self.room.name).returncode, 1)
        self.assertEqual(command("--version").returncode, 0)
        self.assertEqual(command().returncode, 2)

    def test_the_readme_home(self) -> None:
        demo = f"{TOP}/hub/lazbendix_hub/demo.yaml"
        self.assertEqual(command("check", demo).returncode, 0)
        self.assertIn("min before sunset", command("routines", demo).stdout)

    @unittest.skipUnless(find_mosquitto(), "there is no mosquitto")
    def test_demo(self) -> None:
        ran = command("demo", "--seconds", "10", "--port", "0", "--no-browser")
        self.assertEqual(ran.returncode, 0, ran.stderr)
        self.assertRegex(ran.stdout, r"[1-9]\d* runs were done")


if __name__ == "__main__":
    unittest.main()
