"""A civil date and time of the years 0 to 9999, read as `jiff` reads it."""
from __future__ import annotations

import re

OFFSET_HOUR = r"[+-](?:[01]\d|2[0-5])"
FRACTION = r"(?:[.,]\d{1,9})?"
OFFSET = rf"(?:{OFFSET_HOUR}(?::[0-5]\d(?::[0-5]\d{FRACTION})?|[0-5]\d(?:[0-5]\d{FRACTION})?)?)?"
ZONE_PART = r"[A-Za-z_.][A-Za-z0-9_.+-]*"
ZONE = rf"(?:\[!?(?:{ZONE_PART}(?:/{ZONE_PART})*|{OFFSET_HOUR}(?::?[0-5]\d)?)\])?"
KEYED = r"(?:\[[a-z_][a-z0-9_-]*=[A-Za-z0-9]+(?:-[A-Za-z0-9]+)*\])*"
CLOCK = (
    r"(?:[Tt ](?P<hour>\d\d)(?:(?P<colon>:?)(?P<minute>\d\d)"
    rf"(?:(?P=colon)(?P<second>\d\d){FRACTION})?)?{OFFSET})?"
)
TIME = re.compile(
    r"(?P<year>[+-]\d{6}|\d{4})(?P<dash>-?)(?P<month>\d\d)(?P=dash)(?P<day>\d\d)"
    rf"{CLOCK}{ZONE}{KEYED}",
    re.ASCII,
)
DAYS = (31, 28, 31, 30, 31, 30, 31, 31, 30, 31, 30, 31)


def days_in(year: int, month: int) -> int:
    leap = year % 4 == 0 and (year % 100 != 0 or year % 400 == 0)
    return DAYS[month - 1] + (leap and month == 2)


def read_time(text: str) -> tuple[int, ...] | None:
    """(year, month, day, hour, minute, second), or none. What an offset or a zone says is not
    heeded; second 60 is 59.
    """
    found = TIME.fullmatch(text)
    if found is None or found["year"] == "-000000":
        return None
    names = ("year", "month", "day", "hour", "minute", "second")
    year, month, day, hour, minute, second = (int(found[name] or 0) for name in names)
    if not (0 <= year <= 9999 and 1 <= month <= 12 and 1 <= day <= days_in(year, month)):
        return None
    if hour > 23 or minute > 59 or second > 60:
        return None
    return year, month, day, hour, minute, min(second, 59)
