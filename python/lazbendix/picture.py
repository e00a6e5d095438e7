"""Draws a day as an SVG, from its script and its record with trace.

Each window has a column for each entry of its history, 36 beside each other (or as many as asked
for), and a row for each run and for each device that a run names, or for every device. A column is
a step, not time. On the row of a run stand its answers, its doom, its undos and its end, and the
line between them tells whether it waits, and for which run, as far as the history shows it: what a
grip that is out keeps waiting does not show. On the row of a device stand who has it, its value,
its leases, failures and restarts. Below is the serial order.
"""
import bisect
from collections import Counter
from collections.abc import Callable, Iterator

from lazbendix.choice import Choice
from lazbendix.records import Day, Item, Unread, read_day
from lazbendix.reference.history import Fell
from lazbendix.reference.record import WindowPrinter
from lazbendix.reference.script import Script
from lazbendix.reference.serial import Ran
from lazbendix.summary import ordinal
from lazbendix.svg import HALF_TAG, LETTER, MARGIN, Picture, width_of
from lazbendix.told_windows import Facts, told_history

Sample = tuple[
    str, float, str, Callable[[float, float], None]
]  # a sign, its width, what it means, how it is drawn

WIDTH, RUN_ROW, DEVICE_ROW, LEASE_ROW, HEAD, GAP = (
    60,
    52,
    44,
    66,
    42,
    20,
)  # of a column, the rows, the head, and between parts
MODELS = {
    "wv": "weak visibility",
    "gsv": "global strict visibility",
    "psv": "partitioned strict visibility",
    "ev": "eventual visibility",
}
SCHEDULERS = {
    "fcfs": "first come first served",
    "jit": "just in time",
    "timeline": "by the timeline",
}
LINES = {
    "works": (2, ""),
    "waits": (2, "1.5 4"),
    "doomed": (1, "7 3"),
}  # how a run's line is drawn: its width and its dashes
MOST_STEPS = 4000  # of a picture that has a column for each
STEP_WORDS = "A column is one step, not time."
DOWN, SKIPPED = (
    "3 2",
    "1 3",
)  # the dashes of what came of a device that is down, and of a guard that does not hold


class WindowPainter:
    """Draws a window: a band of rows for each so many entries. The signs that it uses it adds to a
    set."""

    def __init__(
        self,
        picture: Picture,
        script: Script,
        day: Day,
        number: int,
        columns: int,
        every: bool,
        signs: set[str],
        chosen: list[int],
    ) -> None:
        self.picture, self.script, self.columns, self.signs = picture, script, columns, signs
        self.window, self.printer = day.windows[number], WindowPrinter(script, number)
        self.history = told_history(script, day, number)
        self.entries = self.history["entries"]
        runs = script.windows[number].runs
        self.commands = {r: script.routines[run.routine].commands for r, run in enumerate(runs, 1)}
        self.labels = {
            r: f"{r} {script.routines[run.routine].name}" for r, run in enumerate(runs, 1)
        }
        self.rows = {run: row for row, run in enumerate(chosen)}
        named = {command.device for run in chosen for command in self.commands[run]}
        if len(chosen) == len(runs):
            named |= {entry["device"] for entry in self.entries if "device" in entry}
        self.devices = [d for d in range(len(script.devices)) if every or d in named]
        self.lent = {lease["device"] for lease in self.history["leases"]}
        self.steps = [step for step, entry in enumerate(self.entries, 1) if self.concerns(entry)]
        self.commits = [entry["run"] for entry in self.entries if entry.get("committed")]
        names = [
            *(self.labels[run] for run in chosen),
            *(script.devices[d].name for d in self.devices),
            "order",
        ]
        self.left = round(MARGIN + max(map(len, names)) * LETTER + 12)

    def concerns(self, entry: Facts) -> bool:
        """Whether the entry has a column: that of a run that is shown, or of a device alone."""
        return entry["run"] in self.rows if "run" in entry else entry["device"] in self.devices

    # Places of the picture. A band has some of the steps that are shown.

    def run_y(self, run: int) -> float:
        return self.top + HEAD + RUN_ROW * self.rows[run] + RUN_ROW / 2

    def device_y(self, device: int) -> float:
        above = sum(LEASE_ROW if d in self.lent else DEVICE_ROW for d in self.devices if d < device)
        return self.top + HEAD + RUN_ROW * len(self.rows) + GAP / 2 + above + DEVICE_ROW / 2

    def bottom(self) -> float:
        rows = sum(LEASE_ROW if d in self.lent else DEVICE_ROW for d in self.devices)
        return self.top + HEAD + RUN_ROW * len(self.rows) + GAP + rows

    def x(self, step: int) -> float:
        place = bisect.bisect_left(self.steps, step)
        is_shown = self.steps[place : place + 1] == [step]
        return self.left + WIDTH * (place - self.begin + (0.5 if is_shown else 0))

    def edge(self, step: int) -> float:
        """Where what holds from the step on begins, or up to it ends, within the band."""
        return min(max(self.x(step), self.left), self.right)

    def seen(self, stretches: list[Facts]) -> Iterator[tuple[Facts, float, float]]:
        """Those of the stretches that reach into the band, each with where it begins and ends
        there. Those of runs that are not shown are left out."""
        for stretch in stretches:
            run = stretch.get("run", stretch.get("borrower"))
            if run is not None and run not in self.rows:
                continue
            x, to_x = self.edge(stretch["from"]), self.edge(stretch["to"])
            if x < to_x:
                yield stretch, x, to_x

    def paint(self) -> None:
        self.picture.text(MARGIN, self.picture.y + 12, self.window.title, "bold")
        self.picture.y += 18
        for begin in range(0, max(len(self.steps), 1), self.columns):
            self.top, self.begin = self.picture.y, begin
            self.band = self.steps[begin : begin + self.columns]
            self.right = self.left + WIDTH * max(len(self.band), 1)
            self.paint_band()
            self.picture.y = self.bottom()
        self.paint_ends()
        self.paint_order()

    def paint_band(self) -> None:
        self.paint_rows()
        self.paint_holdings()
        for state, x, to_x in self.seen(self.history["states"]):
            self.signs.add(state["state"])
            width, dash = LINES[state["state"]]
            self.picture.line(
                x, self.run_y(state["run"]), to_x, self.run_y(state["run"]), width, dash
            )
        self.paint_waits()
        moment = None
        for step in self.band:
            entry = self.entries[step - 1]
            self.picture.text(self.x(step), self.top + 36, str(step), "grey middle")
            if entry.get("moment", moment) != moment:
                moment = entry["moment"]
                self.picture.text(self.x(step), self.top + 20, f"{moment} ms", "grey middle")
            getattr(self, f"paint_{entry['kind']}")(entry, self.x(step))
        self.paint_values()

    def paint_rows(self) -> None:
        self.picture.text(MARGIN, self.top + 36, "step", "grey")
        rows = [(self.labels[run], self.run_y(run)) for run in self.rows]
        rows += [(self.script.devices[d].name, self.device_y(d)) for d in self.devices]
        for label, y in rows:
            self.picture.text(MARGIN, y + 4, label)
            self.picture.line(self.left, y, self.right, y, 0.5, color="#ccc")

    # What lies between two entries.

    def paint_holdings(self) -> None:
        for down, x, to_x in self.seen(self.history["downs"]):
            if down["device"] in self.devices:
                self.signs.add("down")
                self.picture.box(
                    x,
                    self.device_y(down["device"]) - 8,
                    to_x - x,
                    16,
                    fill="url(#down)",
                    stroke="none",
                )
        for hold, x, to_x in self.seen(self.history["holds"]):
            self.signs.add("has")
            self.bracket(x, to_x, self.device_y(hold["device"]) + 12)
        for lease, x, to_x in self.seen(self.history["leases"]):
            self.signs.add("lease")
            y = self.device_y(lease["device"]) + 21
            self.bracket(x, to_x, y, "4 2")
            text = (
                f"{lease['borrower']} has it on lease from "
                f"{' and '.join(map(str, lease['lenders']))} until {lease['deadline']} ms"
            )
            self.picture.text(x, y + 14, text)

    def bracket(self, x: float, to_x: float, y: float, dash: str = "") -> None:
        for side in (x, to_x):
            self.picture.line(side, y - 5, side, y, 1.5)
        self.picture.line(x, y, to_x, y, 1.5, dash)

    def paint_waits(self) -> None:
        """Names the run for which a run waits, where it begins to, as far as there is room."""
        waits = [
            (stretch, x)
            for stretch, x, _ in self.seen(self.history["states"])
            if stretch["state"] == "waits"
        ]
        ends: dict[int, float] = {}
        for wait, x in waits:
            self.signs.add(wait["kind"])
            text = " ".join([wait["kind"], str(wait.get("other", ""))]).strip()
            at = max(x + 8, ends.get(wait["run"], 0))
            self.picture.text(at, self.run_y(wait["run"]) - 14, text, widens=False)
            ends[wait["run"]] = at + width_of(text) + 8

    def paint_values(self) -> None:
        """Names the value of a device where it changes, and at the beginning of a band."""
        for value, x, _ in self.seen(self.history["values"]):
            if value["device"] in self.devices:
                at = x + (2 if self.band and value["from"] < self.band[0] else 13)
                self.picture.text(
                    at, self.device_y(value["device"]) - 12, value["value"], most=8, widens=False
                )

    # What stands at an entry.

    def note(self, run: int, x: float, text: str) -> None:
        self.picture.text(x, self.run_y(run) + 23, text, "middle")

    def paint_arrived(self, entry: Facts, x: float) -> None:
        self.signs.add("arrives")
        self.picture.circle(x, self.run_y(entry["run"]), 4)

    def paint_placed(self, entry: Facts, x: float) -> None:
        self.signs.add("is placed")
        y = self.run_y(entry["run"])
        self.picture.line(x, y - 7, x, y + 7, 2)
        self.note(entry["run"], x, f"place {entry['into']}")

    def paint_did(self, entry: Facts, x: float) -> None:
        if "down" in entry:
            self.signs.add("is told down")
            self.paint_access(entry, x, "down", "white", DOWN)
        elif "skipped" in entry:
            self.signs.add("skips")
            self.paint_skip(entry, x)
        elif self.commands[entry["run"]][entry["command"]].reads:
            self.signs.add("finds")
            self.paint_access(entry, x, entry["value"], "white")
        else:
            self.signs.add("writes")
            self.paint_access(entry, x, entry["value"], "black")

    def paint_skip(self, entry: Facts, x: float) -> None:
        """On the row of the run alone: nothing reaches the device, whose name stands below."""
        y = self.run_y(entry["run"])
        self.picture.box(
            x - WIDTH / 2 + 4, y - HALF_TAG, WIDTH - 8, 2 * HALF_TAG, dash=SKIPPED, round=3
        )
        self.picture.text(x, y + 4, "skips", "middle")
        self.picture.text(x, y + 23, self.script.devices[entry["device"]].name, "middle", most=9)

    def paint_undid(self, entry: Facts, x: float) -> None:
        self.signs.add("takes back" if entry["drove"] else "drops")
        dash = "" if entry["drove"] else DOWN
        y, below = self.drop_line(entry, x)
        self.picture.tag(x, y, WIDTH - 10, dash)
        self.picture.text(
            x + 2, y + 4, entry["value"] if entry["drove"] else "drops", "middle", most=7
        )
        self.picture.tag(x, below, 20, dash)
        self.picture.text(x + 1, below + 4, str(entry["run"]), "middle")

    def drop_line(self, entry: Facts, x: float) -> tuple[float, float]:
        y, below = self.run_y(entry["run"]), self.device_y(entry["device"])
        self.picture.line(x, y, x, below, 0.7, "2 2", "#666")
        return y, below

    def paint_access(self, entry: Facts, x: float, word: str, fill: str, dash: str = "") -> None:
        y, below = self.drop_line(entry, x)
        look = "middle on-black" if fill == "black" else "middle"
        self.picture.box(
            x - WIDTH / 2 + 4, y - HALF_TAG, WIDTH - 8, 2 * HALF_TAG, fill=fill, dash=dash, round=3
        )
        self.picture.text(x, y + 4, word, look, most=7)
        self.picture.circle(x, below, 9, fill, dash)
        self.picture.text(x, below + 4, str(entry["run"]), look)

    def paint_fell(self, entry: Facts, x: float) -> None:
        self.signs.add("fails")
        self.picture.triangle(x, self.device_y(entry["device"]), False)

    def paint_rose(self, entry: Facts, x: float) -> None:
        self.signs.add("is back")
        self.picture.triangle(x, self.device_y(entry["device"]), True)

    def paint_doomed(self, entry: Facts, x: float) -> None:
        self.signs.add("its doom")
        self.picture.cross(x, self.run_y(entry["run"]), 7)
        self.note(entry["run"], x, "doomed")

    def paint_ended(self, entry: Facts, x: float) -> None:
        self.signs.add("commits" if entry["committed"] else "ends aborted")
        self.picture.end(x, self.run_y(entry["run"]), entry["committed"])
        if entry["committed"] and len(self.commits) > 1:
            self.note(entry["run"], x, f"{ordinal(self.commits.index(entry['run']) + 1)} commit")

    # The end of the window.

    def paint_ends(self) -> None:
        for run in self.rows.keys() & self.window.run_lines.keys():
            words = self.printer.run(run, self.window).split(" ")[3:]
            self.picture.text(
                self.right + 8,
                self.run_y(run) + 4,
                " ".join(words) if words[0] == "aborted" else "committed",
            )
        for d, stand in enumerate(self.window.last or []):
            if d in self.devices:
                self.picture.text(
                    self.right + 8,
                    self.device_y(d) + 4,
                    self.printer.stand(self.script.devices[d], stand),
                )

    def paint_order(self) -> None:
        """The items of the serial order, and below each run which of the commits its own was."""
        x: float = self.left
        y = self.picture.y + 14
        self.picture.text(MARGIN, y + 4, "order", "bold")
        if not self.window.order:
            self.picture.text(x, y + 4, "unclaimed" if self.window.order is None else "none")
        for k, item in enumerate(self.window.order or []):
            if k:
                self.picture.line(x, y, x + 14, y, 1)
                self.picture.arrow_head(x + 18, y)
                x += 18
            x += self.paint_item(item, x, y)
        self.picture.y = y + 11 + GAP + (14 if len(self.commits) > 1 else 0)

    def paint_item(self, item: Item, x: float, y: float) -> float:
        """Draws an item of the order from x on; its width."""
        run = item.run if isinstance(item, Ran) else None
        is_told = len(self.commits) > 1 and run in self.commits
        commit = f"{ordinal(self.commits.index(run) + 1)} commit" if is_told else ""
        label = self.labels[run] if run else self.printer.item(item)
        width = max(width_of(label) + 14, 76 if commit else 0)
        self.picture.box(x, y - 11, width, 22, round=10 if run else 0)
        self.picture.text(x + width / 2, y + 4, label, "middle")
        if commit:
            self.picture.text(x + width / 2, y + 25, commit, "grey middle")
        return width


class Legend:
    """What each sign means that a picture uses, sample beside sample, and its words, line below
    line."""

    WORDS = {
        "is placed": "place N: the run has got place N in the line, counted from 0",
        "behind": "behind N: it waits for run N, which stands before it in the line and has, or is "
        "still to use, the device",
        "dirty": "dirty N: it waits to read what run N has written until that run has ended",
        "strict": "strict N: it waits for the end of run N, as the model wants it",
        "follow": "follow N: it is placed when run N has ended, which it follows",
        "denied": "denied N: it is not placed while run N has the device",
    }

    def __init__(self, picture: Picture, signs: set[str]) -> None:
        self.picture, self.signs = picture, signs
        self.x: float = MARGIN
        self.y: float = picture.y + 18
        self.right = max(picture.width - MARGIN, 420)
        picture.line(MARGIN, picture.y, picture.width - MARGIN, picture.y, 0.5, color="#999")

    def samples(self) -> Iterator[Sample]:
        """Of each sign its name, its width, what it means, and how it is drawn around a place."""
        picture = self.picture
        yield "arrives", 8, "arrives", lambda x, y: picture.circle(x, y, 4)
        yield "is placed", 8, "is placed in the line", lambda x, y: picture.line(
            x, y - 7, x, y + 7, 2
        )
        yield "writes", 34, "writes", lambda x, y: self.box(x, y, "black", "on")
        yield "finds", 34, "finds", lambda x, y: self.box(x, y, "white", "on")
        yield "is told down", 38, "is told that it is down", lambda x, y: self.box(
            x, y, "white", "down", DOWN
        )
        yield "skips", 40, "skips a command, whose guard does not hold", lambda x, y: self.box(
            x, y, "white", "skips", SKIPPED
        )
        yield "its doom", 14, "its doom", lambda x, y: picture.cross(x, y, 7)
        yield "takes back", 38, "takes back what it wrote", lambda x, y: self.tag(x, y, "off")
        yield "drops", 44, "drops a write: the device is down", lambda x, y: self.tag(
            x, y, "drops", DOWN
        )
        yield "commits", 14, "commits", lambda x, y: picture.end(x, y, True)
        yield "ends aborted", 14, "ends aborted", lambda x, y: picture.end(x, y, False)
        yield "works", 34, "is at work", lambda x, y: picture.line(
            x - 17, y, x + 17, y, *LINES["works"]
        )
        yield "waits", 34, "waits", lambda x, y: picture.line(x - 17, y, x + 17, y, *LINES["waits"])
        yield "doomed", 34, "is doomed", lambda x, y: picture.line(
            x - 17, y, x + 17, y, *LINES["doomed"]
        )
        yield "has", 34, "a run has the device", lambda x, y: self.bracket(x, y)
        yield "lease", 34, "a run has it on lease", lambda x, y: self.bracket(x, y, "4 2")
        yield "fails", 16, "fails", lambda x, y: picture.triangle(x, y, False)
        yield "down", 34, "is down", lambda x, y: picture.box(
            x - 17, y - 8, 34, 16, fill="url(#down)", stroke="none"
        )
        yield "is back", 16, "is back", lambda x, y: picture.triangle(x, y, True)

    def box(self, x: float, y: float, fill: str, word: str, dash: str = "") -> None:
        width = max(34, width_of(word) + 8)
        self.picture.box(x - width / 2, y - 9, width, 18, fill=fill, dash=dash, round=3)
        self.picture.text(x, y + 4, word, "middle on-black" if fill == "black" else "middle")

    def tag(self, x: float, y: float, word: str, dash: str = "") -> None:
        self.picture.tag(x, y, width_of(word) + 14, dash)
        self.picture.text(x + 2, y + 4, word, "middle")

    def bracket(self, x: float, y: float, dash: str = "") -> None:
        for side in (x - 17, x + 17):
            self.picture.line(side, y - 2, side, y + 3, 1.5)
        self.picture.line(x - 17, y + 3, x + 17, y + 3, 1.5, dash)

    def paint(self) -> None:
        for name, width, meaning, draw in self.samples():
            if name not in self.signs:
                continue
            wide = width + 6 + width_of(meaning)
            if self.x > MARGIN and self.x + wide > self.right:
                self.x, self.y = MARGIN, self.y + 27
            draw(self.x + width / 2, self.y)
            self.picture.text(self.x + width + 6, self.y + 4, meaning)
            self.x += wide + 18
        for name, meaning in self.WORDS.items():
            if name in self.signs:
                self.y += 22
                self.picture.text(MARGIN, self.y + 6, meaning)
        self.picture.y = self.y + 14


class DayPainter:
    """Draws a day that has too many steps: a row for each window."""

    BAR = 6  # the width of a run
    ROW = 22

    def __init__(self, picture: Picture, script: Script, day: Day) -> None:
        self.picture, self.script, self.day = picture, script, day

    def paint(self, numbers: list[int]) -> None:
        """A run is a box, black where it committed; behind them stand how many were aborted, and
        why."""
        left = MARGIN + 190
        widest = max((len(self.day.windows[number].ends) for number in numbers), default=0)
        self.legend()
        for number in numbers:
            told, y = self.day.windows[number], self.picture.y
            self.picture.text(MARGIN, y + 12, told.title)
            ends = sorted(told.ends.items(), key=lambda end: end[1] is not None)
            for place, (_, cause) in enumerate(ends):
                self.end(left + self.BAR * place, y, cause is None)
            self.picture.text(left + self.BAR * widest + 12, y + 12, self.words(number))
            self.picture.y += self.ROW

    def end(self, x: float, y: float, committed: bool) -> None:
        self.picture.box(x, y + 2, self.BAR - 1, 12, fill="black" if committed else "white")

    def legend(self) -> None:
        y = self.picture.y
        for x, committed, words in ((MARGIN, True, "committed"), (MARGIN + 100, False, "aborted")):
            self.end(x, y, committed)
            self.picture.text(x + 12, y + 12, words)
        self.picture.text(
            MARGIN + 200, y + 12, "with --window K the window K is drawn step by step"
        )
        self.picture.y += self.ROW + 8

    def words(self, number: int) -> str:
        """How many runs were aborted, why, and which devices failed."""
        told = self.day.windows[number]
        printer = WindowPrinter(self.script, number)
        causes = Counter(
            printer.run(run, told).split(" ")[4]
            for run, cause in told.ends.items()
            if cause is not None
        )
        failed = Counter(entry.device for entry in told.entries if isinstance(entry, Fell))
        parts = [f"{causes.total()} aborted" if causes else ""]
        parts += [f"{cause} {count}" for cause, count in causes.most_common()]
        parts += [f"{self.script.devices[d].name} fails" for d in failed]
        return ", ".join(filter(None, parts))


def described(day: Day) -> str:
    """The day in a sentence or two, for who does not see the picture."""
    runs = [cause for window in day.windows for cause in window.ends.values()]
    aborted = sum(cause is not None for cause in runs)
    entries = sum(len(window.entries) for window in day.windows)
    return (
        f"Under {MODELS[day.mode.model]}, {SCHEDULERS[day.mode.scheduler]}: windows "
        f"{len(day.windows)}, steps {entries}, "
        f"runs {len(runs)}, committed {len(runs) - aborted}, aborted {aborted}. "
        "Each window shows its runs, its devices and its serial order."
    )


def picture_of(
    script: Script,
    record: str,
    title: str = "A day",
    columns: int = 36,
    every: bool = False,
    choice: Choice = Choice(),
) -> str:
    """The SVG of a day, from its script as it is read and the text of its record."""
    day = read_day(script, record)
    if any(window.run_lines and not window.entries for window in day.windows):
        raise Unread("no trace in the record: make it with --trace")
    numbers = choice.numbers(script, day)
    steps = sum(len(day.windows[number].entries) for number in numbers)
    is_whole = steps > MOST_STEPS and not choice.narrows and len(numbers) > 1
    picture, signs = Picture(), set[str]()
    picture.text(MARGIN, picture.y + 12, title, "bold large")
    mode = f"{day.mode.model} {day.mode.scheduler}"
    told = f"{MODELS[day.mode.model]}, {SCHEDULERS[day.mode.scheduler]} ({mode})."
    about = f"A row is one window: {steps} steps are too many." if is_whole else STEP_WORDS
    picture.text(MARGIN, picture.y + 31, f"{told} {about}", "grey")
    picture.y += 48
    if is_whole:
        DayPainter(picture, script, day).paint(numbers)
        return picture.svg(title, described(day).partition(" Each window")[0])
    for number in numbers:
        chosen = choice.runs(script, day, number)
        WindowPainter(picture, script, day, number, columns, every, signs, chosen).paint()
    Legend(picture, signs).paint()
    return picture.svg(title, described(day))
