"""Times that begin a routine: those of cron, sunrise and sunset."""
from __future__ import annotations

import datetime
import math
from typing import Union

from croniter import croniter

from lazbendix_hub.home import CronTrigger, SunTrigger

Timed = Union[CronTrigger, SunTrigger]
DAY = datetime.timedelta(days=1)


def sun_time(day: datetime.date, latitude: float, longitude: float, is_rise: bool
             ) -> datetime.datetime | None:
    """When the sun rises or sets on that day there, in UTC, to some two minutes; none where it does
    not, as in a polar night. By the almanac's short formula: the sun's mean anomaly, its longitude,
    and the hour angle at which its upper edge is on the horizon (zenith 90.833 degrees)."""
    number = day.timetuple().tm_yday
    hour = longitude / 15
    at = number + ((6 if is_rise else 18) - hour) / 24
    anomaly = 0.9856 * at - 3.289
    true = (anomaly + 1.916 * _sin(anomaly) + 0.020 * _sin(2 * anomaly) + 282.634) % 360
    right = math.degrees(math.atan(0.91764 * math.tan(math.radians(true)))) % 360
    right += math.floor(true / 90) * 90 - math.floor(right / 90) * 90
    sine = 0.39782 * _sin(true)
    cosine = math.cos(math.asin(sine))
    angle = (math.cos(math.radians(90.833)) - sine * _sin(latitude)) / (
        cosine * max(math.cos(math.radians(latitude)), 1e-9))
    if not -1 <= angle <= 1:
        return None
    turned = math.degrees(math.acos(angle))
    turned = (360 - turned if is_rise else turned) / 15
    local = (turned + right / 15 - 0.06571 * at - 6.622) % 24
    universal = (local - hour) % 24
    midnight = datetime.datetime.combine(day, datetime.time(), datetime.timezone.utc)
    found = midnight + datetime.timedelta(hours=universal)
    noon = midnight + datetime.timedelta(hours=12 - hour)
    half = datetime.timedelta(hours=12)
    while found < noon - half:  # the day is that of the place, and its time that of the world
        found += DAY
    while found >= noon + half:
        found -= DAY
    return found


def _sin(degrees: float) -> float:
    return math.sin(math.radians(degrees))


def next_time(timed: Timed, after: datetime.datetime, place: tuple[float, float] | None
              ) -> datetime.datetime | None:
    """The first moment of the trigger later than this one, which has a time zone; none where there
    is none within a year."""
    if isinstance(timed, CronTrigger):
        # By the clock on the wall, also where summer time begins or ends in between.
        times = croniter(timed.cron, after.astimezone().replace(tzinfo=None))
        for _ in range(10):
            found: datetime.datetime = times.get_next(datetime.datetime).astimezone()
            if found > after:
                return found
        return None
    if place is None:
        return None
    offset = datetime.timedelta(seconds=timed.offset)
    day = (after - offset).date() - DAY
    for _ in range(370):
        sun = sun_time(day, place[0], place[1], timed.is_rise)
        if sun is not None and sun + offset > after:
            return sun + offset
        day += DAY
    return None
