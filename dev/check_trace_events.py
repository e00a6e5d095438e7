#!/usr/bin/env python3
"""Asks of a file of Chrome trace events whether it is of that format, as lazbendix trace uses it.

    python3 -m dev.check_trace_events FILE

Neither Perfetto nor chrome://tracing is needed. Asked is what their format says of an object with
`traceEvents`: each event has a phase `ph`, whole numbers `pid` and `tid`, and a name; a complete
event (X) a time `ts`, a duration `dur`, categories and arguments; a metadata event (M) one of the
names that there are, with its argument; an arrow (flow) one begin (s) and one end (f), by its
category and id, the end behind the begin and bound to its enclosing slice (`bp` is e). On a lane,
which is a pid and a tid, slices nest: of two that overlap one holds the other. Each end of an arrow
lies at the begin of a slice of its lane; each lane with slices has a name. Times are microseconds.

Prints how many there are of each phase, or the first event that is otherwise; ends with 1 then, and
with 3 where it cannot be read.
"""
import argparse
import collections
import json
import sys
from typing import Any

Event = dict[str, Any]
Lane = tuple[int, int]
ARGUMENTS = {
    "process_name": ("name", str),
    "thread_name": ("name", str),
    "process_labels": ("labels", str),
    "process_sort_index": ("sort_index", int),
    "thread_sort_index": ("sort_index", int),
}


class Otherwise(Exception):
    """The file is not of the format."""


def need(true: object, event: Any, why: str) -> None:
    if not true:
        raise Otherwise(f"{why}: {json.dumps(event)[:300]}")


def is_number(value: Any) -> bool:
    return isinstance(value, (int, float)) and not isinstance(value, bool)


def is_whole(value: Any) -> bool:
    return isinstance(value, int) and not isinstance(value, bool)


def check_event(event: Any) -> None:
    """The members of an event, by its phase."""
    need(isinstance(event, dict), event, "no object")
    need(event.get("ph") in ("X", "M", "s", "f"), event, "ph is none of X, M, s, f")
    need(isinstance(event.get("name"), str) and event["name"], event, "no name")
    need(
        is_whole(event.get("pid")) and is_whole(event.get("tid")),
        event,
        "pid and tid are no whole numbers",
    )
    if event["ph"] == "M":
        need(event["name"] in ARGUMENTS, event, "no such metadata")
        member, kind = ARGUMENTS[event["name"]]
        need(
            isinstance(event.get("args"), dict) and isinstance(event["args"].get(member), kind),
            event,
            f"no argument {member}",
        )
        return
    need(is_number(event.get("ts")) and event["ts"] >= 0, event, "ts is no time")
    need(isinstance(event.get("cat"), str) and event["cat"], event, "no category")
    if event["ph"] == "X":
        need(is_number(event.get("dur")) and event["dur"] > 0, event, "dur is no duration")
        need(isinstance(event.get("args"), dict), event, "args is no object")
    else:
        need(isinstance(event.get("id"), str) or is_whole(event.get("id")), event, "no id")
        need(
            event.get("bp") == ("e" if event["ph"] == "f" else None),
            event,
            "bp is not as the phase wants it",
        )


def check_nested(lane: list[Event]) -> None:
    """Of two slices of a lane that overlap one holds the other."""
    open_ends: list[float] = []
    for event in sorted(lane, key=lambda slice: (slice["ts"], -slice["dur"])):
        while open_ends and open_ends[-1] <= event["ts"]:
            open_ends.pop()
        need(
            not open_ends or event["ts"] + event["dur"] <= open_ends[-1],
            event,
            "it ends behind the slice that holds it",
        )
        open_ends.append(event["ts"] + event["dur"])


def check_arrows(arrows: dict[Any, list[Event]], lanes: dict[Lane, list[Event]]) -> None:
    for ends in arrows.values():
        need(
            [end["ph"] for end in ends] in (["s", "f"], ["f", "s"]),
            ends,
            "an arrow has one begin and one end",
        )
        begin, end = sorted(ends, key=lambda event: str(event["ph"]), reverse=True)
        need(begin["ts"] < end["ts"], ends, "an arrow leads forward")
        for it in ends:
            starts = [slice["ts"] for slice in lanes[it["pid"], it["tid"]]]
            need(it["ts"] in starts, it, "no slice begins there")


def check_events(data: Any) -> collections.Counter[str]:
    """How many events there are of each phase. Raises `Otherwise`."""
    need(
        isinstance(data, dict) and isinstance(data.get("traceEvents"), list),
        data,
        "no object with a list traceEvents",
    )
    need(data.get("displayTimeUnit") in ("ms", "ns"), data, "displayTimeUnit is neither ms nor ns")
    lanes: dict[Lane, list[Event]] = collections.defaultdict(list)
    arrows: dict[Any, list[Event]] = collections.defaultdict(list)
    named: set[Lane] = set()
    for event in data["traceEvents"]:
        check_event(event)
        if event["ph"] == "X":
            lanes[event["pid"], event["tid"]].append(event)
        elif event["ph"] != "M":
            arrows[event["cat"], event["id"]].append(event)
        elif event["name"] == "thread_name":
            named.add((event["pid"], event["tid"]))
    for lane, slices in lanes.items():
        need(lane in named, slices[0], "its lane has no name")
        check_nested(slices)
    check_arrows(arrows, lanes)
    return collections.Counter(event["ph"] for event in data["traceEvents"])


def main() -> None:
    options = argparse.ArgumentParser(
        description=__doc__, formatter_class=argparse.RawDescriptionHelpFormatter
    )
    options.add_argument("file", metavar="FILE")
    try:
        with open(options.parse_args().file, encoding="utf-8") as given:
            counts = check_events(json.load(given))
    except (OSError, ValueError) as why:
        print(f"check_trace_events: {why}", file=sys.stderr)
        sys.exit(3)
    except Otherwise as why:
        print(f"check_trace_events: {why}", file=sys.stderr)
        sys.exit(1)
    print(
        ", ".join(
            f"{counts[phase]} {what}"
            for phase, what in (("X", "slices"), ("s", "arrows"), ("M", "names"))
        )
    )


if __name__ == "__main__":
    main()
