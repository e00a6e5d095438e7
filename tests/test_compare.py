"""Two records of a day side by side, and which model suits a home. What is wanted is counted off
the records' own lines."""
import json
import os
import tempfile
import unittest
from typing import Any

from lazbendix.compare import column_of, with_seed
from lazbendix.moments import moments_of
from lazbendix.records import read_day
from lazbendix.reference.script import read_script
from tests.places import called, errors, example, example_bytes


def day(runs: list[dict[str, object]], commands: dict[str, list[tuple[str, int]]]) -> bytes:
    """A day of one window, each of whose runs takes its turns one after the other."""
    devices = [{"name": name, "states": ["off", "on"], "start": "off"} for name in "abcd"]
    routines = [
        {
            "name": name,
            "commands": [{"on": on, "do": "set", "to": "on", "takes": takes} for on, takes in made],
        }
        for name, made in commands.items()
    ]
    window = {"at": "2021-04-26T07:00", "runs": runs, "seed": 3}
    return json.dumps(
        {"safehome": 1, "devices": devices, "routines": routines, "windows": [window]}
    ).encode()


def compared(data: bytes, *words: str) -> dict[str, Any]:
    call = called("compare", "--json", *words, "-", data=data)
    assert call.returncode == 0, errors(call)
    told: dict[str, Any] = json.loads(call.stdout)
    return told


class Models(unittest.TestCase):
    def test_counts_are_those_of_the_records(self) -> None:
        facts = compared(example_bytes("leaving.json"), "--models")
        for record in facts["records"]:
            replayed = called(
                "replay", "--model", record["model"], example("leaving.json")
            ).stdout.decode()
            ends = [line.split(" ")[3] for line in replayed.split("\n") if line.startswith("run ")]
            counts = ends.count("committed"), ends.count("aborted")
            self.assertEqual((record["committed"], record["aborted"]), counts)

    def test_runs_that_share_nothing_go_at_once(self) -> None:
        """Under ev and psv the day is as long as its longest run; under gsv as all of them."""
        data = day([{"routine": "x"}, {"routine": "y"}], {"x": [("a", 500)], "y": [("b", 300)]})
        records = {record["model"]: record for record in compared(data, "--models")["records"]}
        lengths = {model: record["lengthMs"] for model, record in records.items()}
        self.assertEqual(lengths, {"ev": 500, "psv": 500, "gsv": 800, "wv": 500})

    def test_psv_suits_where_it_costs_nothing(self) -> None:
        data = day([{"routine": "x"}, {"routine": "y"}], {"x": [("a", 500)], "y": [("b", 300)]})
        facts = compared(data, "--models")
        self.assertEqual(facts["suits"], "psv")
        self.assertIn("No two runs of a window share a device", facts["why"])
        self.assertIn("Under gsv runs go one at a time: its day is 60% longer", facts["why"])

    def test_ev_suits_where_runs_meet_at_one_device(self) -> None:
        """The second run waits at the shared device alone under ev, and for the whole first run
        under psv."""
        data = day(
            [{"routine": "x"}, {"routine": "y"}],
            {"x": [("a", 100), ("b", 900)], "y": [("a", 100), ("c", 900)]},
        )
        facts = compared(data, "--models")
        lengths = {record["model"]: record["lengthMs"] for record in facts["records"]}
        self.assertEqual(
            (facts["suits"], lengths["ev"], lengths["psv"], lengths["gsv"]),
            ("ev", 1100, 2000, 2000),
        )
        self.assertIn(
            "Under psv no two runs that share a device mix: its day is 82% longer", facts["why"]
        )

    def test_text(self) -> None:
        told = called("compare", "--models", example("leaving.json")).stdout.decode()
        for words in (
            "ev fcfs",
            "runs aborted",
            "Devices that differ",
            "suits this home",
            "wv takes nothing back",
        ):
            self.assertIn(words, told)


class Records(unittest.TestCase):
    def test_two_records(self) -> None:
        with tempfile.TemporaryDirectory() as folder:
            names = []
            for scheduler in ("fcfs", "jit"):
                names.append(os.path.join(folder, f"{scheduler}.record"))
                with open(names[-1], "wb") as file:
                    file.write(
                        called("replay", "--scheduler", scheduler, example("overdue.json")).stdout
                    )
            call = called("compare", example("overdue.json"), *names)
            facts = json.loads(called("compare", "--json", example("overdue.json"), *names).stdout)
        self.assertEqual(call.returncode, 0)
        self.assertIn("revoked oven by 1", call.stdout.decode())
        self.assertEqual([run["run"] for run in facts["runs"]], ["window 1 run 2 b"])
        self.assertEqual(
            facts["devices"], [{"device": "oven", "fcfs.record": "off", "jit.record": "on"}]
        )
        self.assertIsNone(facts["records"][0]["waits"])  # there is no trace

    def test_seeds_and_schedulers(self) -> None:
        seeds = compared(example_bytes("failing.json"), "--seeds", "2-4")
        self.assertEqual(
            [record["name"] for record in seeds["records"]], ["seed 2", "seed 3", "seed 4"]
        )
        schedulers = compared(example_bytes("overdue.json"), "--schedulers")
        self.assertEqual(
            [record["name"] for record in schedulers["records"]],
            ["ev fcfs", "ev jit", "ev timeline"],
        )
        self.assertEqual([record["aborted"] for record in schedulers["records"]], [0, 1, 1])

    def test_a_seed_is_put_into_each_window(self) -> None:
        data = (
            b'{"safehome": 1, "devices": [], "routines": [], "windows": [{"at": "2021-04-26", '
            b'"runs": []},'
            b' { "at": "2021-04-27", "seed": 7, "runs": []}]}'
        )
        seeds = [window.seed for window in read_script(with_seed(data, 12)).windows]
        self.assertEqual(seeds, [12, 12])

    def test_other_words(self) -> None:
        wrong: list[list[str]] = [
            [],
            ["--models", "--seeds", "1-2"],
            ["--seeds", "1-99"],
            ["--models", "--model", "ev"],
            ["--seeds", "4-2"],
        ]
        for words in wrong:
            call = called("compare", *words, example("leaving.json"))
            self.assertEqual((call.returncode, call.stderr.split(b"\n")[0]), (2, b"words"), words)
        self.assertEqual(called("compare", "--models", data=b"{").returncode, 2)
        self.assertEqual(called("compare", "--models", "-", data=b"{").returncode, 1)


class Moments(unittest.TestCase):
    def test_a_replay_moves_one_clock(self) -> None:
        """By the script's times: each command takes 100 ms but where it says otherwise, and the
        record's own moments agree."""
        script = read_script(example_bytes("leaving.json"))
        record = called("replay", "--trace", example("leaving.json")).stdout.decode()
        told = read_day(script, record).windows[0]
        moments = moments_of(script, 0, told)
        dids = [
            moment
            for line, moment in zip(
                [it for it in record.split("\n") if it.startswith("# ")], moments
            )
            if " did " in line
        ]
        self.assertEqual(dids, [100, 200, 300, 400])

    def test_waits_of_overlapping_runs(self) -> None:
        data = day([{"routine": "x"}, {"routine": "y"}], {"x": [("a", 400)], "y": [("a", 100)]})
        script = read_script(data)
        column = column_of(script, called("replay", "--trace", data=data).stdout.decode(), "x")
        self.assertEqual((column.length, column.waited in (100, 400)), (500, True))


if __name__ == "__main__":
    unittest.main()
