"""What the page tells of the whole day: every run with its end and how long it waited, the longest
waits, and each device through the day. All of it is gathered window by window, from what the page
is told of each."""
import heapq
import itertools
from typing import Any

from lazbendix.reference.script import Script
from lazbendix.told_windows import Facts

Rows = list[Facts]
MOST_WAITS = 200  # the longest ones


def columns(rows: Rows) -> dict[str, list[Any]]:
    """Rows as columns, none where a row has no such member: they pack better, and say the same."""
    names = dict.fromkeys(name for row in rows for name in row)
    return {name: [row.get(name) for row in rows] for name in names}


class Explorer:
    """Gathers a day."""

    def __init__(self, script: Script) -> None:
        self.script = script
        self.routines = {routine.name: r for r, routine in enumerate(script.routines)}
        self.runs: Rows = []
        self.places: Rows = []  # of a device in a window: its waits, failures and aborts
        self.homes: list[list[str]] = []  # of each window the values of the devices behind it
        self.serial = itertools.count()
        self.waits: list[tuple[int, int, int, Facts]] = []  # a heap of the longest

    def add(self, window: Facts) -> None:
        """Adds a window, as the page is told it."""
        history = window["history"] or {"states": [], "entries": [], "moments": []}
        moments = [0, *history.get("moments", [])]
        devices: dict[int, Facts] = {}

        def device(d: int) -> Facts:
            return devices.setdefault(d, {"window": window["number"], "device": d})

        waited = self.add_waits(window, history, moments, device)
        for entry in history["entries"]:
            if entry["kind"] in ("fell", "rose"):
                place = device(entry["device"])
                place[entry["kind"]] = place.get(entry["kind"], 0) + 1
        steps = {
            entry["run"]: step
            for step, entry in enumerate(history["entries"], 1)
            if entry["kind"] == "doomed" or entry.get("committed")
        }
        for number, run in enumerate(window["runs"], 1):
            row: Facts = {
                "window": window["number"],
                "run": number,
                "routine": run["routine"],
                "end": run["end"],
            }
            if run["end"] == "aborted":
                d = self.cause_device(run)
                row |= {"cause": run["cause"]["kind"], "device": d}
                device(d)["aborts"] = device(d).get("aborts", 0) + 1
            if number in steps:
                row["step"] = steps[number]
            if number in waited:
                row["waited"], row["ms"] = waited[number]
            self.runs.append(row)
        self.places += devices.values()
        self.homes.append(
            [
                f"{stand['value']}{'!' if stand['down'] else ''}"
                for stand in window["home"]["devices"]
            ]
        )

    def add_waits(
        self, window: Facts, history: Facts, moments: list[int], device: Any
    ) -> dict[int, tuple[int, int]]:
        """Adds the waits of a window; of each run that waited, how many steps and ms."""
        waited: dict[int, tuple[int, int]] = {}
        for state in history["states"]:
            if state["state"] != "waits":
                continue
            last = min(state["to"], len(moments) - 1)
            steps, ms = last - state["from"], moments[last] - moments[state["from"]]
            before = waited.get(state["run"], (0, 0))
            waited[state["run"]] = before[0] + steps, before[1] + ms
            if "device" in state:
                place = device(state["device"])
                for name, count in (("waits", 1), ("steps", steps), ("ms", ms)):
                    place[name] = place.get(name, 0) + count
            row = {
                "window": window["number"],
                "run": state["run"],
                "from": state["from"],
                "to": state["to"],
                "ms": ms,
                "kind": state["kind"],
                "other": state.get("other"),
                "device": state.get("device"),
            }
            told = (ms, steps, -next(self.serial), row)
            if len(self.waits) < MOST_WAITS:
                heapq.heappush(self.waits, told)
            elif told[:3] > self.waits[0][:3]:
                heapq.heapreplace(self.waits, told)
        return waited

    def cause_device(self, run: Facts) -> int:
        """The device by which a run was aborted."""
        cause = run["cause"]
        if "device" in cause:
            return int(cause["device"])
        return int(self.script.routines[run["routine"]].commands[cause["command"]].device)

    def told(self) -> Facts:
        """The day, as the page unpacks it."""
        longest = [row for *_, row in sorted(self.waits, key=lambda told: told[:3], reverse=True)]
        return {
            "runs": columns(self.runs),
            "places": columns(self.places),
            "waits": columns(longest),
            "homes": self.homes,
        }
