"""What of the hub has to outlive its process: triggers that were acknowledged, windows that were
open, where the devices stood; and the records of the windows, which the project's tools read."""
from __future__ import annotations

import fcntl
import json
import os
import re
from dataclasses import dataclass, field
from typing import Any, Iterable, TextIO

MOST_WINDOWS = 288


@dataclass(frozen=True)
class Accepted:
    """A trigger that was acknowledged; `at` is a time of the wall's clock, in seconds."""

    number: int
    routine: str
    source: str
    at: float


@dataclass
class Kept:
    """What a former life left: triggers whose window was not closed, the devices which the window
    that was open may have driven, and where all stood when the last window was closed, as words by
    names. Of the window that was not closed its time, the trigger of each run, the triggers whose
    end was told, and those of them whose run was taken back."""

    waiting: list[Accepted] = field(default_factory=list)
    half_done: list[str] = field(default_factory=list)
    stands: dict[str, str] = field(default_factory=dict)
    last: int = 0
    window: str = ""
    runs: dict[int, int] = field(default_factory=dict)
    told: set[int] = field(default_factory=set)
    over: set[int] = field(default_factory=set)
    later: dict[str, float] = field(default_factory=dict)  # what is to be done, and when

    def lines(self) -> list[dict[str, Any]]:
        """The lines that say so."""
        found: list[dict[str, Any]] = [{"last": self.last}, {"stands": self.stands},
                                       {"later": self.later}]
        found += [_line(each) for each in self.waiting]
        if self.half_done:
            found.append({"open": self.half_done})
        if self.window:
            found.append({"window": self.window})
        found += [{"run": run, "of": number} for run, number in self.runs.items()]
        if self.told:
            found.append({"told": sorted(self.told), "over": sorted(self.over)})
        return found

    def read(self, line: dict[str, Any]) -> None:
        """A line of the file that is not about triggers."""
        if "run" in line:
            self.runs[int(line["run"])] = int(line["of"])
        elif "window" in line:
            self.window, self.runs = str(line["window"]), {}
            self.told, self.over = set(), set()
        elif "later" in line:
            self.later = {str(key): float(at) for key, at in line["later"].items()}
        elif "told" in line:
            self.told |= {int(number) for number in line["told"]}
            self.over |= {int(number) for number in line["over"]}
        elif "open" in line or "stands" in line:
            self.half_done = [str(each) for each in line.get("open", ())]
            if "stands" in line:
                self.stands = {str(name): str(it) for name, it in line["stands"].items()}
                self.window, self.runs, self.told, self.over = "", {}, set(), set()
        else:
            self.last = max(self.last, int(line["last"]))


class Ledger:
    """The triggers, a line for each event, synced before anything is acknowledged or driven. A
    folder is one hub's alone: `BlockingIOError` where another one lives there."""

    def __init__(self, folder: str) -> None:
        os.makedirs(folder, exist_ok=True)
        self.folder = folder
        self.path = os.path.join(folder, "triggers.log")
        self.lock = open(os.path.join(folder, "lock"), "w", encoding="utf-8")
        try:
            fcntl.flock(self.lock, fcntl.LOCK_EX | fcntl.LOCK_NB)
        except OSError:
            self.lock.close()
            raise BlockingIOError(f"another hub lives in {folder}") from None
        self.kept = _read(self.path)
        self.number, self.stands = self.kept.last, dict(self.kept.stands)
        self.later = dict(self.kept.later)
        self.is_dirty = False
        self.syncs = 0
        self._begin_anew(self.kept)

    def _begin_anew(self, kept: Kept) -> None:
        """Writes what still counts into a new file, and puts it into the place of the old one."""
        with open(self.path + ".new", "w", encoding="utf-8") as file:
            for line in kept.lines():
                file.write(json.dumps(line) + "\n")
            file.flush()
            os.fsync(file.fileno())
        os.replace(self.path + ".new", self.path)
        self.file: TextIO = open(self.path, "a", encoding="utf-8")
        self.lines = 0

    def _write(self, line: dict[str, Any]) -> None:
        self.file.write(json.dumps(line) + "\n")
        self.is_dirty = True
        self.lines += 1

    def accept(self, routine: str, source: str, at: float) -> Accepted:
        """A trigger is taken. It is on the disk after the next `sync`."""
        self.number += 1
        accepted = Accepted(self.number, routine, source, at)
        self._write(_line(accepted))
        return accepted

    def ended(self, numbers: Iterable[int]) -> None:
        """These triggers are done: their window was closed, or they have become too old."""
        listed = list(numbers)
        if listed:
            self._write({"ended": listed})

    def began(self, at: str) -> None:
        """A window was begun at this time."""
        self._write({"window": at})

    def joined(self, run: int, trigger: int) -> None:
        """The window's run is that of the trigger."""
        self._write({"run": run, "of": trigger})

    def told(self, numbers: list[int], over: list[int]) -> None:
        """The ends of these triggers were told, and of those that are over the run was taken back;
        their window is not closed yet."""
        if numbers:
            self._write({"told": numbers, "over": over})

    def put_off(self, later: dict[str, float]) -> None:
        """This is to be done later, and nothing else; the times are of the wall's clock."""
        self.later = later
        self._write({"later": later})
        self.file.flush()

    def opened(self, devices: Iterable[str]) -> None:
        """From now on these devices may be driven."""
        self._write({"open": list(devices)})

    def closed(self, stands: dict[str, str]) -> None:
        """The window is closed, and the devices stand so."""
        self.stands = stands
        self._write({"open": [], "stands": stands})
        self.file.flush()  # a kill of the process loses nothing; the next sync is for the rest

    def sync(self) -> None:
        """All is on the disk when this returns."""
        if self.is_dirty:
            self.file.flush()
            os.fdatasync(self.file.fileno())
            self.is_dirty = False
            self.syncs += 1

    def tidy(self, waiting: Iterable[Accepted]) -> None:
        """Begins the file anew where it has become long; no window is open."""
        if self.lines > 10_000:
            self.file.close()
            self._begin_anew(Kept(list(waiting), [], self.stands, self.number, later=self.later))

    def close(self) -> None:
        """Syncs and closes the file, and gives the folder free."""
        self.sync()
        self.file.close()
        self.lock.close()


def _line(accepted: Accepted) -> dict[str, Any]:
    return {"trigger": accepted.number, "routine": accepted.routine, "source": accepted.source,
            "at": accepted.at}


def _read(path: str) -> Kept:
    """What the file of a former life has; a torn line at its end is passed over."""
    kept, waiting = Kept(), dict[int, Accepted]()
    try:
        with open(path, encoding="utf-8", errors="replace") as file:
            lines = file.read().splitlines()
    except FileNotFoundError:
        return kept
    for text in lines:
        try:
            line = json.loads(text)
            if "trigger" in line:
                number = int(line["trigger"])
                waiting[number] = Accepted(number, str(line["routine"]), str(line["source"]),
                                           float(line["at"]))
                kept.last = max(kept.last, number)
            elif "ended" in line:
                for number in line["ended"]:
                    waiting.pop(number, None)
            else:
                kept.read(line)
        except (ValueError, KeyError, TypeError, AttributeError):
            continue
    kept.waiting = list(waiting.values())
    return kept


class Records:
    """The journal: `1.record` with the text of each window, `1.json` with the script that it is of,
    as library/live writes them. A life of the hub begins a new pair, as do 288 windows."""

    def __init__(self, folder: str) -> None:
        self.folder = os.path.join(folder, "journal")
        os.makedirs(self.folder, exist_ok=True)
        numbers = [name.partition(".")[0] for name in os.listdir(self.folder)]
        self.day = max((int(each) for each in numbers if each.isdigit()), default=0)
        self.script: dict[str, Any] = {}
        self.head = self.above = ""
        self.runs = self.committed = 0

    def begin(self, script: bytes, head: str, is_opened: bool = True) -> None:
        """A new pair; where the hub was just opened, every device is up at its start."""
        self.day += 1
        self.script, self.head = json.loads(script), head
        self.runs = self.committed = 0
        self._write_script()
        self._append(head + ("# opened\n" if is_opened else ""))

    def go_on(self) -> bool:
        """Goes on with the pair of a former life; no where there is none. A window of its script
        whose text was not written whole is dropped: it is closed once more."""
        try:
            with open(self._path("json"), encoding="utf-8") as file:
                self.script = json.load(file)
            with open(self._path("record"), encoding="utf-8") as file:
                lines = file.read().splitlines(keepends=True)
        except (OSError, ValueError):
            return False
        ends = [at for at, line in enumerate(lines) if line.startswith("home ")]
        text = "".join(lines[: ends[-1] + 1] if ends else
                       [*lines[:2], *(each for each in lines[2:3] if each == "# opened\n")])
        with open(self._path("record"), "w", encoding="utf-8") as file:
            file.write(text)
        self.script["windows"] = self.script["windows"][: len(ends)]
        self.head = "".join(lines[:2])
        self.runs = sum(len(window["runs"]) for window in self.script["windows"])
        self.committed = len(re.findall(r"^run \d+ \S+ committed", text, re.MULTILINE))
        return True

    def has(self, at: str) -> bool:
        """Whether the window of this time is in the pair."""
        windows = self.script["windows"]
        return bool(windows) and windows[-1]["at"] == at

    def _write_script(self) -> None:
        with open(self._path("new"), "w", encoding="utf-8") as file:
            json.dump(self.script, file)
        os.replace(self._path("new"), self._path("json"))

    def _path(self, ending: str) -> str:
        return os.path.join(self.folder, f"{self.day}.{ending}")

    def _append(self, text: str) -> None:
        with open(self._path("record"), "a", encoding="utf-8") as file:
            file.write(text)

    def found(self, device: str, word: str) -> None:
        """A device was found elsewhere than the home had it."""
        self.above += f"# found {device}={word}\n"

    def lost(self, device: str) -> None:
        """A device was told to be down."""
        self.above += f"# lost {device}\n"

    def closed(self, number: int, at: str, routines: list[str], committed: int, text: str) -> None:
        """A window was closed, with this text. A kill of the process does not lose it; it is not
        synced, since nothing is rebuilt from it."""
        if number == 0 and self.script["windows"]:
            self.end()
            self.begin(json.dumps({**self.script, "windows": []}).encode(), self.head, False)
        self.script["windows"].append({"at": at,
                                       "runs": [{"routine": name} for name in routines]})
        self.runs, self.committed = self.runs + len(routines), self.committed + committed
        self._write_script()
        self._append(self.above + text)
        self.above = ""

    def end(self) -> None:
        """The pair ends here."""
        if self.script and self.script["windows"]:
            self._append(f"total windows {len(self.script['windows'])} runs {self.runs} committed "
                         f"{self.committed} aborted {self.runs - self.committed}\n")
