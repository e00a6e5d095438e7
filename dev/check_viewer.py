#!/usr/bin/env python3
"""Shows that the page of a day tells what its record says, and can be looked at, used with keys,
and is never slow.

    PYTHONPATH=python python3 -m dev.check_viewer [--days N] [--seed S] [--sample N]
                                                  [--pictures FOLDER]

Draws days (1000 of the seed 1), replays each by the reference in one mode after the other, and a
tenth as many more by the timeline, for which it rearranges its line; and makes the picture and the
page of each, with and without the record's trace. Of each page its data is asked: each line of the
record stands in it, in its place; what is told of an entry is what the line's own words say; what
holds between two entries is what is found anew there for each run and device; the line as it grew
ends as the order; without the trace the same is told.

Then in a headless Chromium: three days, one of them with 64 runs on 256 devices, wide and narrow,
light and dark, and a sample of the drawn ones (20). Asked is that nothing is thrown, asked of the
network or wider than the page; that no two texts overlap; that the page opens at the first doom,
and pointed at and step by step tells each entry as the record has it; that each key does what the
page says; that all that can be used has a name; that texts have a contrast of 4.5 and more; and how
long a painting takes. With --pictures, stores what was seen. Prints how many of each were asked;
ends with 1 at the first that is otherwise. It needs the program chromium.
"""
import argparse
import collections
import html.parser
import json
import os
import random
import re
import sys
import tempfile
from collections.abc import Iterator
from typing import Any

from dev.headless import Browser, Tab
from lazbendix.picture import picture_of
from lazbendix.records import Day, Retelling, is_whole_step, read_day, stands_before
from lazbendix.reference import days
from lazbendix.reference.compare import MODES
from lazbendix.reference.history import Mode
from lazbendix.reference.hub import WAITS
from lazbendix.reference.record import head_text, total_text, window_text
from lazbendix.reference.replay import Home
from lazbendix.reference.script import Script, read_script
from lazbendix.reference.serial import Ran
from lazbendix.summary import ordinal
from lazbendix.told_windows import Facts, wait_facts
from lazbendix.viewer import page_of

HERE = os.path.dirname(os.path.abspath(__file__))


Counts = dict[str, float]

STRETCHES = ("states", "holds", "downs", "leases", "values")
WIDE, NARROW = (1360, 850), (390, 844)
SLOWEST = 16  # ms of a processor for a painting of the chart


class Otherwise(Exception):
    pass


def need(true: object, *told: object) -> None:
    if not true:
        raise Otherwise("\n".join(map(str, told)))


# Days.


def played(script: Script, mode: Mode) -> list[str]:
    """The text of the day's record with its trace, and without."""
    home = Home(script)
    records = [home.replay(window, mode) for window in script.windows]
    return [
        "".join(
            [
                head_text(mode),
                *(window_text(script, k, record, mode, trace) for k, record in enumerate(records)),
                total_text(records),
            ]
        )
        for trace in (True, False)
    ]


def crowded_day(draw: random.Random) -> Facts:
    """64 runs on 256 devices, of which some fail."""
    rooms = ["hall", "kitchen", "bath", "attic", "cellar", "garden", "study", "porch"]
    things = ["lamp", "heater", "blinds", "fan", "plug", "valve", "lock", "speaker"]
    devices = [
        crowded_device(draw, f"{rooms[d // 8 % 8]}-{things[d % 8]}-{d // 64 + 1}")
        for d in range(256)
    ]
    routines = [
        {"name": f"routine-{r + 1}", "commands": crowded_commands(draw, devices)} for r in range(64)
    ]
    runs = [{"routine": routine["name"]} for routine in routines]
    windows = [{"at": "2021-04-26T07:00:00", "probes": 2, "runs": runs}]
    return {"safehome": 1, "devices": devices, "routines": routines, "windows": windows}


def crowded_device(draw: random.Random, name: str) -> Facts:
    made: Facts = {"name": name, "low": 0, "high": 99, "start": 0}
    if draw.random() < 0.6:
        made = {"name": name, "states": ["off", "on"], "start": "off"}
    if draw.random() < 0.08:
        made["down"] = [[draw.randint(2, 6), draw.randint(7, 9)]]
    return made


def crowded_commands(draw: random.Random, devices: list[Facts]) -> list[Facts]:
    own, commands = draw.sample(devices, 10), []
    for _ in range(draw.randint(24, 64)):
        on, do = draw.choice(own), draw.choice(
            ["set", "set", "set", "set", "load", "store", "check"]
        )
        made = {
            "on": on["name"],
            "do": do,
            "ms": draw.choice([10, 100, 500]),
            "takes": draw.choice([10, 100, 600]),
            "must": do != "check" and draw.random() < 0.3,
        }
        if do in ("set", "check"):
            made["to"] = draw.choice(days.values(on))
        commands.append(made)
    return commands


# What the page says of a line, read off the line's own words.


def entry_facts(line: str, script: Facts, window: Facts) -> tuple[Facts, list[str]]:
    """What stands in an entry's data, and pieces of what is told of it."""
    match line.split(" ")[1:]:
        case ["arrived", run, "at", moment]:
            return {"kind": "arrived", "run": int(run), "moment": int(moment)}, ["arrives"]
        case ["placed", run, "place", place, "at", moment]:
            facts = {"kind": "placed", "run": int(run), "into": int(place), "moment": int(moment)}
            return facts, [f"the {ordinal(int(place) + 1)}"]
        case ["did", numbers, answer]:
            by, c = map(int, numbers.split("."))
            return answer_facts(by, c, answer, script, window)
        case ["undid", run, device, how]:
            facts = {"kind": "undid", "run": int(run), "drove": how == "drove"}
            return facts, [device, "takes back" if how == "drove" else "drops"]
        case ["fell", device]:
            return {"kind": "fell"}, [f"{device} fails"]
        case ["rose", device]:
            return {"kind": "rose"}, [f"{device} is back"]
        case ["doomed", run, *cause]:
            return {"kind": "doomed", "run": int(run)}, ["doomed", *cause_pieces(cause)]
        case ["ended", run, end]:
            done = end == "committed"
            return {"kind": "ended", "run": int(run), "committed": done}, [
                "commits" if done else "aborted"
            ]
    raise Otherwise(f"a line of no kind: {line}")


def answer_facts(
    run: int, c: int, answer: str, script: Facts, window: Facts
) -> tuple[Facts, list[str]]:
    routine = next(
        routine
        for routine in script["routines"]
        if routine["name"] == window["runs"][run - 1]["routine"]
    )
    command, facts = routine["commands"][c - 1], {"kind": "did", "run": run, "command": c - 1}
    if answer == "-":
        return {**facts, "down": True}, [command["on"], "is down"]
    if answer == "/":
        return {**facts, "skipped": True}, [command["on"], "skips"]
    if answer == "." and command["do"] == "store":
        return facts, [command["on"], "stores"]
    value = str(command["to"]) if answer == "." else answer
    return {**facts, "value": value}, [command["on"], value]


def cause_pieces(cause: list[str]) -> list[str]:
    match cause:
        case ["must", c]:
            return [f"{ordinal(int(c))} command", "down"]
        case ["refuted", c, "found", value]:
            return [f"{ordinal(int(c))} command", f"found {value}"]
        case ["revoked", device, "by", lender, "deadline", deadline, "at", moment]:
            return [
                device,
                f"run {lender} (",
                f"ended at {int(deadline):,} ms",
                f"it is {int(moment):,} ms",
            ]
    return [cause[1]]


def pieces_of(line: str, script: Facts, window: Facts) -> list[str]:
    """Pieces that stand in the sentence for an entry, in small letters."""
    facts, pieces = entry_facts(line, script, window)
    if "run" in facts:
        pieces = [f"run {facts['run']} ({window['runs'][facts['run'] - 1]['routine']})", *pieces]
    return [piece.lower() for piece in pieces]


# The data of a page.


class Blocks(html.parser.HTMLParser):
    """The blocks of data of a page, by their names, and whether it names anything outside of
    itself.
    """

    def __init__(self, page: str) -> None:
        super().__init__()
        self.blocks: Facts = {}
        self.name: str | None = None
        self.outside: list[str] = []
        self.feed(page)

    def handle_starttag(self, tag: str, attributes: list[tuple[str, str | None]]) -> None:
        told = dict(attributes)
        self.name = told.get("id") if told.get("type") == "application/json" else None
        self.outside += [
            value
            for name, value in attributes
            if value and name in ("src", "href") and not value.startswith(("data:", "#"))
        ]

    def handle_data(self, data: str) -> None:
        if self.name:
            self.blocks[self.name] = json.loads(data)
            self.name = None


def lines_in(blocks: Facts, trace: bool) -> list[str | None]:
    """The record's lines as the page has them."""
    day = blocks["day"]
    lines = list(day["head"])
    for number in range(1, len(day["windows"]) + 1):
        window = blocks[f"window-{number}"]
        entries = window["history"]["entries"] if trace else []
        lines += [
            window["title"],
            *(entry["line"] for entry in entries),
            *(run["line"] for run in window["runs"]),
        ]
        lines += [window["order"]["line"], window["home"]["line"]]
    return [*lines, day["total"]]


def check_data(page: str, text: str, script: Facts, trace: bool, counts: Counts) -> Facts:
    told = Blocks(page)
    need(not told.outside, told.outside)
    need(lines_in(told.blocks, trace) == text.split("\n")[:-1], text)
    counts["lines of records that stand in a page"] += len(text.split("\n")) - 1
    for number, window in enumerate(script["windows"], 1):
        check_window(told.blocks[f"window-{number}"], script, window, counts)
    return told.blocks


def check_window(block: Facts, script: Facts, window: Facts, counts: Counts) -> None:
    line: list[Any] = []
    for entry in block["history"]["entries"]:
        facts, _ = entry_facts(entry["line"], script, window)
        need(facts.items() <= entry.items(), facts, entry)
        counts["entries told as their lines say"] += 1
        if "first" in entry:
            first = entry["first"]
            need(
                first == sorted(first)
                and len(first) == entry["into"]
                and entry["kind"] == "placed",
                entry,
            )
            line = [line[place] for place in first] + [
                item for place, item in enumerate(line) if place not in first
            ]
            counts["placings that rearrange the line"] += 1
        if "into" in entry:
            name = script["devices"][entry["device"]]["name"] if "device" in entry else ""
            items = {"placed": entry.get("run"), "fell": f"fail({name})", "rose": f"back({name})"}
            line.insert(entry["into"], items[entry["kind"]])
        if "outOf" in entry:
            need(line.pop(entry["outOf"]) == entry["run"], entry)
    need(block["order"]["items"] in (None, line), block["order"], line)
    for kind in STRETCHES:
        last = len(block["history"]["entries"]) + 1
        need(
            all(0 <= told["from"] < told["to"] <= last for told in block["history"][kind]),
            kind,
            block,
        )
        counts["stretches"] += len(block["history"][kind])


def check_foreign(script: Facts, read: Script, plain: str, counts: Counts) -> None:
    """Of a record without a trace that no replay prints, no history is told: of one whose first
    order is turned around.
    """
    order = next((line for line in plain.split("\n") if line.startswith("order ")), "")
    turned = " ".join(["order", *reversed(order.split(" ")[1:])])
    if turned != order:
        told = Blocks(page_of(read, plain.replace(order, turned, 1), "turned")).blocks
        need(
            all(
                told[name]["history"] is None
                for name in told
                if name.startswith("window-") and script["windows"][0]["runs"]
            ),
            plain,
        )
        counts["records that are no replay, told without a history"] += 1


def check_between(block: Facts, read: Script, day: Day, number: int, counts: Counts) -> None:
    """What holds between the entries, found anew for every run and every device behind each step
    that was made.
    """
    again = Retelling(read, number, day.mode, stands_before(read, day, number), day.windows[number])
    history = block["history"]
    for k, _ in again.steps():
        if is_whole_step(day.windows[number].entries, k):
            wanted = held(again, read)
            for kind in STRETCHES:
                told = [
                    stretch for stretch in history[kind] if stretch["from"] <= k + 1 < stretch["to"]
                ]
                bare = [
                    {name: value for name, value in stretch.items() if name not in ("from", "to")}
                    for stretch in told
                ]
                need(
                    sorted(map(str, bare)) == sorted(map(str, wanted[kind])),
                    kind,
                    k + 1,
                    bare,
                    wanted[kind],
                )
                counts["stretches that hold where they should"] += len(bare)


def held(again: Retelling, read: Script) -> dict[str, list[Facts]]:
    hub, history = again.hub, again.history
    devices, live = range(len(read.devices)), [
        run for run in history.arrived if run not in history.ends
    ]
    line = [
        item.run for item in history.line if isinstance(item, Ran) and history.is_live(item.run)
    ]
    lent = {
        (device, run): [
            x
            for x in line[place + 1 :]
            if history.is_open(x, device) and history.placed[x] < history.placed[run]
        ]
        for place, run in enumerate(line)
        for device in devices
        if history.is_open(run, device)
    }
    return {
        "states": [state_of(again, run) for run in live],
        "holds": [
            {"device": device, "run": run}
            for device in devices
            for run in history.placed
            if not hub.is_weak and hub.has_touched(run, device) and hub.holds(run, device)
        ],
        "downs": [{"device": device} for device in devices if not history.up[device]],
        "leases": [
            {
                "device": device,
                "borrower": run,
                "lenders": lenders,
                "deadline": hub.deadline(run, device),
            }
            for (device, run), lenders in lent.items()
            if lenders and not hub.is_weak
        ],
        "values": [
            {"device": device, "value": read.devices[device].word(hub.standing_value(device))}
            for device in devices
        ],
    }


def state_of(again: Retelling, run: int) -> Facts:
    wait = again.hub.decide(run, again.moment)
    if isinstance(wait, WAITS):
        return {"run": run, "state": "waits", **wait_facts(wait)}
    return {"run": run, "state": "doomed" if run in again.history.dooms else "works"}


def drawn(count: int, seed: int) -> Iterator[tuple[Facts, Script, Mode]]:
    """Days that are drawn: the script, its text, and the mode. Behind them come a tenth as many for
    which the timeline often rearranges its line, and half as many with guards."""
    draw = random.Random(seed)
    for k in range(count):
        script = days.with_picks(draw, days.day(draw))
        yield script, read_script(json.dumps(script).encode()), Mode(*MODES[k % len(MODES)])
    for _ in range(count // 10):
        script = days.gap_day(draw)
        yield script, read_script(json.dumps(script).encode()), Mode("ev", "timeline")
    for k in range(count // 2):
        mode = Mode(*MODES[k % len(MODES)])
        script = days.day_for(draw, mode.scheduler, 2)
        yield script, read_script(json.dumps(script).encode()), mode


def check_drawn(count: int, seed: int, sample: int, counts: Counts) -> list[tuple[Facts, str, str]]:
    """Asks all drawn days; gives the pages of a sample of them."""
    pages: list[tuple[Facts, str, str]] = []
    for k, (script, read, mode) in enumerate(drawn(count, seed)):
        texts = played(read, mode)
        pages_of_day = [page_of(read, text, f"day {k}") for text in texts]
        try:
            traced, plain = (
                check_data(page, text, script, text is texts[0], counts)
                for page, text in zip(pages_of_day, texts)
            )
            need(traced == plain, "without its trace another day is told")
            check_foreign(script, read, texts[1], counts)
            recorded = read_day(read, texts[0])
            for number in range(len(recorded.windows)):
                check_between(traced[f"window-{number + 1}"], read, recorded, number, counts)
        except Otherwise as why:
            raise Otherwise(f"{json.dumps(script)}\n{mode}\n{why}") from None
        picture_of(read, texts[0])
        counts[f"days under {mode.model} {mode.scheduler}"] += 1
        if len(pages) < sample and k % max(count // max(sample, 1), 1) == 0:
            pages.append((script, texts[0], pages_of_day[0]))
    return pages


# The page in a browser.

POSES = {
    "failing": "page.go(10)",
    "overdue": "page.go(6)",
    "crowded": "page.zoomToWhole(), page.fold('runs'), page.fold('devices'), page.go(1400)",
}

NAMED_ROLES = (
    "button",
    "tab",
    "tablist",
    "checkbox",
    "listbox",
    "option",
    "application",
    "searchbox",
    "dialog",
    "link",
    "navigation",
    "group",
)


def item_shown(item: str) -> str:
    """How the page names an item of the order."""
    return re.sub(r"fail\((.*)\)", r"\1 fails", re.sub(r"back\((.*)\)", r"\1 is back", item))


class Look:
    """A day in a tab."""

    def __init__(self, tab: Tab, script: Facts, text: str, counts: Counts) -> None:
        self.tab, self.script, self.counts = tab, script, counts
        with open(os.path.join(HERE, "check_viewer.js")) as stored:
            tab.value(f"{stored.read()}; undefined")
        self.windows: list[list[str]] = []
        self.orders: list[list[str]] = []
        for line in text.split("\n"):
            if line.startswith("window "):
                self.windows.append([])
            elif line.startswith("# "):
                self.windows[-1].append(line)
            elif line.startswith("order "):
                self.orders.append(line.split(" ")[1:])

    def value(self, script: str) -> Any:
        return self.tab.value(script)

    def do(self, script: str) -> None:
        self.tab.value(f"void ({script})")
        self.tab.settle()

    def check_look(self, state: str) -> None:
        """Nothing thrown, asked for or too wide, and no text over another."""
        told = self.tab.taken(
            "Runtime.exceptionThrown", "Runtime.consoleAPICalled", "Log.entryAdded"
        )
        need(not told, state, told)
        asked = [told["request"]["url"] for told in self.tab.taken("Network.requestWillBeSent")]
        need(all(url.startswith(("file:", "data:")) for url in asked), asked)
        need(
            self.value("document.documentElement.scrollWidth <= innerWidth"),
            state,
            "wider than the page",
        )
        for script in ("asked.chartOverlaps()", "asked.textOverlaps()"):
            found = self.value(script)
            need(not found, state, found)
        self.counts["looks without an overlap"] += 1

    def check_words(self, step: int, number: int) -> None:
        """The page is at the step, and tells its sentence and its line as the record has them."""
        line = self.windows[number - 1][step - 1]
        at, told, shown = self.value("asked.card()")
        need((at, shown) == (step, line), at, shown, f"not {step}", line)
        for piece in pieces_of(line, self.script, self.script["windows"][number - 1]):
            need(piece in told.lower(), line, told, f"missing: {piece}")
        self.counts["entries told in a browser"] += 1

    def check_line(self, step: int, number: int) -> None:
        """As many items are shown in the line as came into it and stayed, and at the end those of
        the order.
        """
        shown, lines, order = (
            self.value("asked.line()"),
            self.windows[number - 1],
            self.orders[number - 1],
        )
        came = [line.split(" ") for line in lines[:step]]
        count = sum(words[1] in ("placed", "fell", "rose") for words in came) - sum(
            words[-1] == "aborted" for words in came
        )
        need(order == ["unclaimed"] or len(shown) == count, shown, count)
        if step == len(lines) and order not in (["unclaimed"], ["none"]):
            need(shown == [item_shown(item) for item in order], shown, order)
        self.counts["lines of items in a browser"] += 1

    def check_steps(self, number: int, most: int = 80) -> None:
        """Step by step, by keys; of a long window some steps."""
        steps = range(1, len(self.windows[number - 1]) + 1)
        self.do(f"page.open({number}), page.go(0)")
        need(not self.value("asked.growthSlips()"), "the line grows otherwise than by its changes")
        for step in steps if len(steps) <= most else sorted(random.Random(1).sample(steps, most)):
            if len(steps) > most:
                self.do(f"page.go({step - 1})")
            self.tab.press("ArrowRight")
            self.check_words(step, number)
            self.check_line(step, number)

    def check_pointing(self, number: int, most: int = 24) -> None:
        """What is told where one points at a sign."""
        lines = self.windows[number - 1]
        self.do(f"page.open({number})")
        for step in sorted(
            random.Random(2).sample(range(1, len(lines) + 1), min(most, len(lines)))
        ):
            x, y = self.value(f"asked.placeOf({step})")
            self.tab.settle()
            self.tab.point(x, y)
            shown = self.value("asked.tip()")
            need(shown == lines[step - 1], shown, lines[step - 1])
            self.counts["signs that tell their entry"] += 1

    def check_keys(self) -> None:
        """Each key does what the page says of it."""
        steps = self.value("page.window.steps")
        self.expect("End", "page.step", steps)
        self.expect("ArrowLeft", "page.step", steps - 1)
        self.expect("ArrowRight", "page.step", steps)
        self.expect("Home", "page.step", 0)
        self.expect("ArrowDown", "page.selected && page.selected.kind", "run")
        for k in (0, 1):
            self.expect(
                "ArrowRight", f"page.step === page.window.stepsOfRun.get(1)[{k}]", True, shift=True
            )
        self.expect("Enter", "[...page.choice.runs]", [1])
        self.expect("Enter", "page.choice.isNarrowed", False)
        self.expect("Escape", "page.selected", None)
        width = self.value("page.columnWidth")
        self.expect("-", f"page.columnWidth < {width}", True)
        self.expect(
            "0", "page.layout.width <= page.room() + 1 || page.columnWidth === WIDEST", True
        )
        self.expect("+", "page.columnWidth <= WIDEST", True)
        for key, group in (("r", "runs"), ("d", "devices"), ("l", "line")):
            self.expect(key, f"page.choice.groups.{group}", False)
            self.expect(key, f"page.choice.groups.{group}", True)
        is_dark = self.value("page.palette.isDark")
        self.expect("t", "page.palette.isDark", not is_dark)
        self.expect("t", "page.palette.isDark", is_dark)
        for key, dialog in (("?", "keys"), ("f", "choices")):
            self.expect(key, f"document.getElementById('{dialog}').open", True)
            self.check_look(dialog)
            self.expect("Escape", f"document.getElementById('{dialog}').open", False)
        self.expect(" ", "Boolean(page.playing)", True)
        self.expect(" ", "Boolean(page.playing)", False)
        windows = self.value("page.day.windows.length")
        self.expect("PageDown", "page.window.number", min(2, windows))
        self.expect("PageUp", "page.window.number", 1)

    def expect(self, key: str, script: str, wanted: object, shift: bool = False) -> None:
        self.tab.press(key, shift)
        found = self.value(script)
        need(found == wanted, f"key {key}: {script}", f"is {found}, not {wanted}")
        self.counts["keys that do as they should"] += 1

    def check_names(self) -> None:
        for node in self.tab.ask("Accessibility.getFullAXTree")["nodes"]:
            role, name = node.get("role", {}).get("value"), node.get("name", {}).get("value")
            if role in NAMED_ROLES and not node.get("ignored"):
                need(name, "no name", node)
                self.counts["parts with a name"] += 1


STATES = [
    "page.go(Math.ceil(page.window.steps * 0.6))",
    "page.turnTo('outcome')",
    "page.turnTo('history')",
    "page.zoomToWhole()",
    "page.zoom(3)",
    "page.go(page.window.steps)",
    "page.select(page.layout.lanes[1])",
]
UNFOLDED = (
    "Object.assign(page.choice.groups, { runs: true, devices: true, line: true }), page.release()"
)


def check_day(
    browser: Browser,
    script: Facts,
    text: str,
    address: str,
    counts: Counts,
    pictures: str | None,
    name: str,
) -> None:
    """A day wide and narrow, light and dark."""
    for dark in (False, True):
        for size, form in ((WIDE, "wide"), (NARROW, "narrow")):
            with browser.tab(*size, dark) as tab:
                tab.open(address)
                look = Look(tab, script, text, counts)
                check_opening(look)
                check_looks(look, f"{name} {form}", dark)
                if pictures:
                    look.do(f"page.open(1), {POSES[name]}, scrollTo(0, 0)")
                    tab.picture(
                        os.path.join(pictures, f"{name}-{form}-{'dark' if dark else 'light'}.png")
                    )
                    look.do(UNFOLDED)
                if not dark:
                    check_use(look, name, form)


def check_opening(look: Look) -> None:
    """The page opens at the first doom, or at the end."""
    lines = look.windows[0]
    wanted = next(
        (step for step, line in enumerate(lines, 1) if line.startswith("# doomed ")), len(lines)
    )
    need(look.value("page.step") == wanted, "opened at", look.value("page.step"), f"not {wanted}")


def check_looks(look: Look, name: str, dark: bool) -> None:
    need(look.value("page.palette.isDark") == dark, "the colors are not the system's")
    low = look.value("asked.lowContrasts()")
    need(not low, low)
    look.check_look(f"{name}: opened")
    for state in STATES:
        look.do(state)
        look.check_look(f"{name}: {state}")


def check_use(look: Look, name: str, form: str) -> None:
    look.do("page.open(1), page.release()")
    look.check_keys()
    look.check_names()
    look.check_pointing(1)
    check_paintings(look, name)
    for number in range(1, len(look.windows) + 1) if form == "wide" else []:
        look.check_steps(number)
    look.check_look(f"{name} {form} at last")


def check_paintings(look: Look, name: str) -> None:
    """How long a painting of the chart takes, on an average, at the usual width of columns and with
    the whole window in view.
    """
    for width, zoom in (("usual", "page.open(1)"), ("whole", "page.zoomToWhole()")):
        look.do(zoom)
        before = look.tab.work()
        look.value("asked.paintAround()")
        each = (look.tab.work() - before) / 60
        need(each < SLOWEST, name, width, each)
        kind = f"ms of a processor for a painting: {name}, {width}"
        look.counts[kind] = max(round(each, 1), look.counts[kind])


def check_sample(
    browser: Browser, pages: list[tuple[Facts, str, str]], folder: str, counts: Counts
) -> None:
    for k, (script, text, page) in enumerate(pages):
        path = os.path.join(folder, f"drawn-{k}.html")
        with open(path, "w") as stored:
            stored.write(page)
        with browser.tab(*(NARROW if k % 4 == 3 else WIDE), dark=k % 2 == 1) as tab:
            tab.open(f"file://{path}")
            look = Look(tab, script, text, counts)
            for number in range(1, len(look.windows) + 1):
                look.check_steps(number)
                look.check_look(f"drawn day {k}, window {number}")
                look.do("page.zoomToWhole()")
                look.check_look(f"drawn day {k}, window {number}, whole")
        counts["drawn days in a browser"] += 1


def three_days() -> Iterator[tuple[str, Facts, Mode]]:
    """The days that are looked at: name, script, its mode."""
    for name, mode in (("failing", Mode("ev", "fcfs")), ("overdue", Mode("ev", "jit"))):
        with open(os.path.join(HERE, "..", "examples", f"{name}.json")) as stored:
            yield name, json.load(stored), mode
    yield "crowded", crowded_day(random.Random(5)), Mode("ev", "timeline")


def check_browser(
    pages: list[tuple[Facts, str, str]], counts: Counts, pictures: str | None
) -> None:
    with tempfile.TemporaryDirectory() as folder, Browser() as browser:
        for name, script, mode in three_days():
            read = read_script(json.dumps(script).encode())
            text, _ = played(read, mode)
            path = os.path.join(folder, f"{name}.html")
            with open(path, "w") as stored:
                stored.write(page_of(read, text, name))
            counts[f"entries of {name}"] = text.count("\n# ")
            check_day(browser, script, text, f"file://{path}", counts, pictures, name)
        check_sample(browser, pages, folder, counts)


def main() -> None:
    options = argparse.ArgumentParser(
        description=__doc__, formatter_class=argparse.RawDescriptionHelpFormatter
    )
    options.add_argument("--days", type=int, default=1000, help="how many days are drawn")
    options.add_argument("--seed", type=int, default=1)
    options.add_argument(
        "--sample", type=int, default=20, help="how many of them are looked at in a browser"
    )
    options.add_argument("--pictures", help="a folder for what was seen")
    asked = options.parse_args()
    counts: Counts = collections.defaultdict(int)
    try:
        pages = check_drawn(asked.days, asked.seed, asked.sample, counts)
        check_browser(pages, counts, asked.pictures)
    except Otherwise as why:
        sys.exit(f"otherwise: {why}")
    for kind, number in counts.items():
        print(f"{number:9} {kind}")


if __name__ == "__main__":
    main()
