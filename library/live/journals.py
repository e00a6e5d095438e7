"""The journal of a live hub: for each day of at most 288 windows a record and the script that it is of.

`1.record` has the library's text of each window as it was closed, with a line `# triggers 4 5` of the triggers of its runs, and
above a window a line `# found lamp=on` for each device that stood elsewhere than the home had it, and `# lost lamp` for one that
did not answer. `1.json` has the home's devices and routines, and these windows. A line `# opened` says that a home was begun,
with every device up at its start.

Each part ends with a line `# report 7`. A report that comes once more, after a kill, is in the journal already, and what follows
the last such line was torn by a kill: it is cut off, and comes once more.
"""
import copy
import json
import os
import re
from typing import Any

MOST_WINDOWS = 288
REPORT = re.compile(r"^# report (\d+)\n", re.M)
RUN = re.compile(r"^run \d+ \S+ (committed|aborted)", re.M)


class Journal:
    def __init__(self, folder: str, home: Any, head: str, is_new: bool) -> None:
        """The journal in the folder, of a home that is new or goes on."""
        os.makedirs(folder, exist_ok=True)
        self.folder, self.home, self.head = folder, home, head
        self.day = max([int(name[:-7]) for name in os.listdir(folder) if name.endswith(".record")], default=0)
        if is_new or not self.day:
            self.last = 0  # the number of the last report
            self.begin_day("# opened\n")
        else:
            self.go_on()

    def path(self, ending: str) -> str:
        return os.path.join(self.folder, f"{self.day}.{ending}")

    def begin_day(self, line: str = "") -> None:
        self.day += 1
        self.script = copy.deepcopy(self.home)
        self.replace("record", f"{self.head}{line}# report {self.last}\n")

    def go_on(self) -> None:
        """Cuts off what a kill has torn, here and in the script."""
        text = self.read()
        ends = list(REPORT.finditer(text))
        self.last = int(ends[-1][1])
        os.truncate(self.path("record"), len(text[: ends[-1].end()].encode()))
        self.script = copy.deepcopy(self.home)
        if os.path.exists(self.path("json")):
            with open(self.path("json"), encoding="utf-8") as file:
                self.script = json.load(file)
        del self.script["windows"][len(re.findall("^home ", text[: ends[-1].end()], re.M)) :]

    def read(self) -> str:
        with open(self.path("record"), encoding="utf-8") as file:
            return file.read()

    def replace(self, ending: str, text: str) -> None:
        """The file has this text, or what it had."""
        with open(self.path("new"), "w", encoding="utf-8") as file:
            file.write(text)
            file.flush()
            os.fsync(file.fileno())
        os.replace(self.path("new"), self.path(ending))

    def write(self, text: str) -> None:
        """The text is on the disk when this returns."""
        with open(self.path("record"), "a", encoding="utf-8") as file:
            file.write(text)
            file.flush()
            os.fsync(file.fileno())

    def has(self, report: int) -> bool:
        """Whether the report is in the journal; else it is the next one."""
        is_old, self.last = report <= self.last, max(report, self.last)
        return is_old

    def found(self, report: int, device: str, value: str) -> None:
        if not self.has(report):
            self.write(f"# found {device}={value}\n# report {report}\n")

    def lost(self, report: int, device: str) -> None:
        if not self.has(report):
            self.write(f"# lost {device}\n# report {report}\n")

    def closed(self, report: int, number: int, window: Any, triggers: list[int], text: str) -> None:
        """A window of the script was closed, with this text."""
        if self.has(report):
            return
        if number == 0 and self.script["windows"]:
            self.end_day()
            self.begin_day()
        self.script["windows"].append(window)
        self.replace("json", json.dumps(self.script))
        self.write(f"# triggers {' '.join(map(str, triggers))}\n{text}# report {report}\n")

    def end_day(self) -> None:
        ends = [end[1] for end in RUN.finditer(self.read())]
        windows, committed = len(self.script["windows"]), ends.count("committed")
        self.write(f"total windows {windows} runs {len(ends)} committed {committed} aborted {len(ends) - committed}\n")
