"""Makes the script of the next day: the devices start where a record left them.

The record is a whole one of the script, or, for the rest of a day, one that was cut; the check of
records is to accept it, as far as it goes (under the weak model it cannot be asked). The script
stays as it is, byte for byte, but for

- each `start`, which is the value of the record's last home line;
- each window's `at`, which is so many days later: as many as are asked for, or as the windows span;
- each `down`. Its calls are numbered over one day, and no record tells how many there were, so the
  list is emptied.

A device that was left down, `!` in the home line, cannot be said to be: each device of a script
starts counted up. What can be said is that it does not answer its first calls, 1 or as many as
asked for: `"down": [[1, CALLS + 1]]`. So the first run or probe that comes to it finds it down, and
a later probe finds it back. Its `start` is the value at which it is to stand; where it does stand
nobody knows.

Of the rest of a day the windows that the record tells whole are left out, and the others keep their
times. A window is told when it has ended; so of the one that was open as the program ended no
record tells what its runs had done, and its devices may stand otherwise than the script says.
"""
from collections.abc import Iterator

from lazbendix.records import Day, WindowLines, read_day
from lazbendix.reference.check import Differs, check_record
from lazbendix.reference.json_text import Node, read_places
from lazbendix.reference.record import time_text
from lazbendix.reference.script import Refusal, Script, read_script
from lazbendix.reference.times import days_in

Time = tuple[int, ...]  # year, month, day, hour, minute, second
Edit = tuple[
    int, int, str, str | None
]  # the first byte, the one behind the last, what comes there, and what is told


class NoNext(Exception):
    """Why there is no next script."""


def day_number(at: Time) -> int:
    """The number of the date among the days from year 0 on, in the calendar of the script."""
    year, month, day = at[:3]
    leaps = (year + 3) // 4 - (year + 99) // 100 + (year + 399) // 400  # of the years before
    return 365 * year + leaps + sum(days_in(year, before) for before in range(1, month)) + day - 1


def date_of(number: int) -> Time:
    year = number * 400 // 146_097
    while day_number((year, 1, 1)) > number:
        year -= 1
    while day_number((year + 1, 1, 1)) <= number:
        year += 1
    rest, month = number - day_number((year, 1, 1)), 1
    while rest >= days_in(year, month):
        rest, month = rest - days_in(year, month), month + 1
    return year, month, rest + 1


def later(at: Time, days: int) -> Time:
    """The time so many days later."""
    date = date_of(day_number(at) + days)
    if not 0 <= date[0] <= 9999:
        raise NoNext("the next day's times are none of the years 0 to 9999")
    return *date, *at[3:]


def edits(
    top: Node, script: Script, whole: list[WindowLines], days: int | None, silent: int
) -> Iterator[Edit]:
    """What stands where in the next script: a first byte, the one behind the last, and the bytes
    between; and what is told."""
    last = whole[-1].last or [] if whole else []
    for device, node, stand in zip(script.devices, top.value["devices"].value, last):
        start, down = node.value["start"], node.value.get("down")
        word = device.word(stand.value)
        yield start.at, start.end, f'"{word}"' if device.states else word, None
        calls = "[]" if stand.up else f"[[1, {silent + 1}]]"
        if down is not None:
            left_out = device.downs and stand.up
            says = f"{device.name}: which of its calls fail then is not known: left out"
            yield down.at, down.end, calls, says if left_out else None
        elif not stand.up:
            yield start.end, start.end, f', "down": {calls}', None
        if not stand.up:
            calls = f"{silent} calls" if silent > 1 else "call"
            yield 0, 0, "", (
                f"{device.name} was left down: it starts counted up, at {word}, where it is to "
                "stand, and does not "
                f"answer its first {calls}"
            )
    windows = top.value["windows"].value
    if days is None and whole:
        stop = windows[len(whole)].at if len(whole) < len(windows) else windows[-1].end
        rest = len(windows) - len(whole)
        says = f"the rest of the day has {rest} of {len(windows)} windows"
        yield windows[0].at, stop, "", says
    if days is not None:
        for window, node in zip(script.windows, windows):
            at = node.value["at"]
            yield at.at, at.end, f'"{time_text(later(window.at, days))}"', None


def span_of(script: Script) -> int:
    """How many days the windows of the script span."""
    numbers = [day_number(window.at) for window in script.windows]
    return max(numbers) - min(numbers) + 1 if numbers else 1


def whole_windows(script: Script, day: Day, text: str) -> list[WindowLines]:
    """The windows that the record tells whole, which agree with the script."""
    whole = [told for told in day.windows if told.home_line]
    if day.mode.model != "wv":
        try:
            check_record(script, text.encode())
        except Differs as differs:
            cut = not day.total_line and (
                differs.window > len(whole) or str(differs) == f"window {len(whole)} total"
            )
            if not cut:
                raise NoNext(f"the record does not agree with its script: {differs}") from None
    return whole


def next_day(
    data: bytes, text: str, days: int | None = None, silent: int = 1, rest: bool = False
) -> tuple[bytes, list[str]]:
    """The next script, from a script and its record, and what is to be told of it."""
    script = read_script(data)
    day = read_day(script, text)
    if not (day.total_line or rest):
        raise NoNext(
            f"the record was cut behind line {day.lines}: --rest makes the script of the rest of "
            "its day"
        )
    whole = whole_windows(script, day, text)
    if rest and len(whole) == len(script.windows):
        raise NoNext("the record tells each window of its day: nothing is left of it")
    if rest or days is None:
        days = None if rest else span_of(script)
    parts, told, at = list[bytes](), list[str](), 0
    for begin, end, words, says in sorted(
        edits(read_places(data), script, whole, days, silent), key=lambda edit: edit[:2]
    ):
        told += [says] if says else []
        if begin or end:
            parts += [data[at:begin], words.encode()]
            at = end
    made = b"".join([*parts, data[at:]])
    try:
        read_script(made)
    except Refusal as refusal:
        raise NoNext(f"the next script would be refused: {refusal}") from None
    return made, told
