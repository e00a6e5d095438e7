"""The page of a large day in a headless Chromium, where one is installed: packed windows, the day
as a whole, the axis by ms, and the zoom. LAZBENDIX_LARGE=1 takes 288 windows of 64 runs, and asks
how long the page takes: of its own thread always, and of the clock where the machine is calm."""
import base64
import json
import os
import resource
import shutil
import subprocess
import sys
import tempfile
import time
import unittest
import zlib

from dev.headless import Browser, Tab
from tests.places import HAS_PROGRAM, TOP, called, errors

LARGE = bool(os.environ.get("LAZBENDIX_LARGE"))
WINDOWS, RUNS = (288, 64) if LARGE else (32, 28)
OPENS, CHANGES = 2.0, 0.2  # s, of the large day
PAGE_BYTES = 5_000_000
SECONDS = {"view": 15, "summary": 10, "picture": 10, "trace": 10}


def is_calm() -> bool:
    """Whether fewer programs want a processor than there are, so that a clock says something."""
    return os.getloadavg()[0] < (os.cpu_count() or 1)


def spent() -> float:
    """How many seconds of a processor the calls have taken so far."""
    used = resource.getrusage(resource.RUSAGE_CHILDREN)
    return used.ru_utime + used.ru_stime


def large_day(folder: str) -> tuple[str, str]:
    """The files of a large day whose devices fail, and of its record with trace."""
    day, record = os.path.join(folder, "day.json"), os.path.join(folder, "day.record")
    words = [
        sys.executable,
        os.path.join(TOP, "bench", "dense_day.py"),
        str(WINDOWS),
        str(RUNS),
        "4",
        "32",
        "0",
        "1",
        "8",
    ]
    with open(day, "wb") as file:
        file.write(subprocess.run(words, capture_output=True, check=True).stdout)
    with open(record, "wb") as file:
        file.write(called("replay", "--trace", day).stdout)
    return day, record


class Page(unittest.TestCase):
    folder: "tempfile.TemporaryDirectory[str]"
    day: str
    record: str
    page: str
    lines: list[str]
    took: float

    @classmethod
    def setUpClass(cls) -> None:
        if LARGE and not HAS_PROGRAM:
            raise unittest.SkipTest("the large day wants the built program")
        cls.folder = tempfile.TemporaryDirectory()
        cls.addClassCleanup(cls.folder.cleanup)
        cls.day, cls.record = large_day(cls.folder.name)
        with open(cls.record, encoding="utf-8") as file:
            cls.lines = file.read().split("\n")
        cls.page = os.path.join(cls.folder.name, "day.html")
        begin = spent()
        made = called("view", cls.day, cls.record)
        cls.took = spent() - begin
        assert made.returncode == 0, errors(made)
        with open(cls.page, "wb") as file:
            file.write(made.stdout)

    def test_size_and_time(self) -> None:
        with open(self.page, "rb") as file:
            data = file.read()
        self.assertLess(len(data), PAGE_BYTES)
        self.assertEqual(data.count(b'type="application/zlib"'), WINDOWS + 1)
        if LARGE:
            took = {"view": self.took}
            for name in ("summary", "picture", "trace"):
                begin = spent()
                self.assertEqual(called(name, self.day, self.record).returncode, 0)
                took[name] = spent() - begin
            print({name: round(it, 1) for name, it in took.items()}, file=sys.stderr)
            if is_calm():
                self.assertEqual([it for it in took if took[it] > SECONDS[it]], [])

    def test_each_line_of_the_record_is_in_the_packed_windows(self) -> None:
        with open(self.page, encoding="utf-8") as file:
            page = file.read()
        for number in range(1, WINDOWS + 1):
            text = page.partition(f'id="window-{number}">')[2].partition("<")[0]
            told = json.loads(zlib.decompress(base64.b64decode(text)))
            begin = self.lines.index(told["title"])
            count = len(told["history"]["entries"]["line"])
            self.assertEqual(
                told["history"]["entries"]["line"], self.lines[begin + 1 : begin + 1 + count]
            )
            self.assertEqual(
                [run["line"] for run in told["runs"]],
                self.lines[begin + 1 + count : begin + 1 + count + RUNS],
            )

    def test_choices(self) -> None:
        part = called("view", "--window", "3-5", "--aborted", self.day, self.record)
        self.assertIn(b'"choice":{"run":null,"device":null,"aborted":true}', part.stdout)
        self.assertEqual(
            part.stdout.count(b'zlib" id="window-') + part.stdout.count(b'json" id="window-'), 3
        )
        with open(self.day, encoding="utf-8") as file:
            day = json.load(file)
        used = {
            routine["name"]: {command["on"] for command in routine["commands"]}
            for routine in day["routines"]
        }
        runs = [
            f"Run {run} ("
            for run, it in enumerate(day["windows"][4]["runs"], 1)
            if "d5" in used[it["routine"]]
        ]
        told = called(
            "summary", "--window", "5", "--device", "d5", self.day, self.record
        ).stdout.decode()
        self.assertEqual(
            [
                line[2 : line.index("(") + 1]
                for line in told.split("\n")
                if line.startswith("  Run ")
            ],
            runs,
        )
        events = json.loads(
            called(
                "trace", "--window", "2", "--axis", "ms", "--run", "1", self.day, self.record
            ).stdout
        )
        self.assertEqual({event["pid"] for event in events["traceEvents"]}, {2})
        picture = called("picture", self.day, self.record).stdout.decode()
        self.assertIn("A row is one window", picture)
        self.assertIn(
            "A column is one step",
            called("picture", "--window", "2", "--run", "1", self.day, self.record).stdout.decode(),
        )

    @unittest.skipUnless(shutil.which("chromium"), "no chromium is installed")
    def test_in_a_browser(self) -> None:
        with Browser() as browser, browser.tab(1400, 900) as tab:
            begin = time.monotonic()
            tab.open(f"file://{self.page}")
            tab.settle()
            opened, worked = time.monotonic() - begin, tab.work() / 1000
            for _ in range(200):
                if tab.value("page.wholeDay.told !== null"):
                    break
                time.sleep(0.05)
            self.check_day(tab)
            self.check_windows(tab)
            thrown = tab.taken(
                "Runtime.exceptionThrown", "Runtime.consoleAPICalled", "Log.entryAdded"
            )
            self.assertEqual(thrown, [])
            if LARGE:
                self.is_within("the page opens", opened, worked, OPENS)

    def is_within(self, what: str, seconds: float, worked: float, most: float) -> None:
        """The page's own thread worked at most so long, and so long passed on a calm machine."""
        print(f"{what}: {seconds:.2f} s, {worked:.2f} s of its thread", file=sys.stderr)
        self.assertLess(worked, most)
        if is_calm():
            self.assertLess(seconds, most)

    def check_day(self, tab: Tab) -> None:
        """The day as a whole is shown first, and says what the record's lines say."""
        aborted = [
            line.split(" ")
            for line in self.lines
            if line.startswith("run ") and " aborted " in line
        ]
        self.assertTrue(tab.value("page.isDayShown"))
        causes = tab.value(
            "[...document.querySelectorAll('.cause')].map((it) => "
            "[it.querySelector('code').textContent, "
            "Number(it.querySelector('.count').textContent)])"
        )
        words = [line[4] for line in aborted]
        self.assertEqual(dict(causes), {cause: words.count(cause) for cause in set(words)})
        self.assertEqual(tab.value("document.querySelectorAll('.cell').length"), WINDOWS)
        routine = aborted[0][2]
        tab.value(f"page.wholeDay.search.value = '{routine} aborted', page.wholeDay.find()")
        found = tab.value("page.wholeDay.told.found(page.wholeDay.search.value, {}).length")
        self.assertEqual(found, sum(line[2].startswith(routine) for line in aborted))

    def check_windows(self, tab: Tab) -> None:
        """Windows change, the filter stays, the axis turns, and the zoom keeps the chosen step."""
        before = tab.work()
        seconds = tab.value(
            "(async () => { const begin = performance.now(); await page.open(7); return "
            "(performance.now() - begin) "
            "/ 1000; })()"
        )
        self.assertEqual(tab.value("page.window.label"), "7")
        self.assertFalse(tab.value("page.isDayShown"))
        if LARGE:
            worked = (tab.work() - before) / 1000
            self.is_within("the window changes", seconds, worked, CHANGES)
        tab.value("page.choice.devices.add(3), page.layOut()")
        tab.value("(async () => { await page.open(8); })()")
        self.assertEqual(tab.value("[...page.choice.devices]"), [3])
        tab.value("page.release(), page.go(40), page.turnAxis()")
        tab.settle()
        place = "page.layout.x(page.step) - part('chart-box').scrollLeft"
        self.assertEqual(tab.value("[page.axis, page.layout.edges !== null]"), ["ms", True])
        for factor in (1.4, 1 / 1.4):
            stood = tab.value(place)
            tab.value(f"page.zoom({factor})")
            self.assertLess(abs(tab.value(place) - stood), 2)
            self.assertEqual(tab.value("page.step"), 40)
        widths = tab.value(
            "page.layout.columns.every((step, column) => page.layout.stepAt(page.layout.x(step)) "
            "=== step)"
        )
        self.assertTrue(widths)


if __name__ == "__main__":
    unittest.main()
