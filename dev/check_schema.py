#!/usr/bin/env python3
"""Shows that docs/script.schema.json and the reading of scripts agree, as far as a schema can say
it.

    python3 -m dev.check_schema [DAYS [SEED]]

It reads the scripts of script_table and of the examples, and days that are drawn (4000 of the seed
1, and behind them as many with guards), of which three in four are spoiled. Each script that is
read must be valid by the schema, and each refused one invalid, but for what no schema of single
values says: that a whole number is written 1.0 or 1e2, that one value must fit another (a name that
stands earlier or nowhere, a state of its device, low and high, from and to, a turn or a follow
beyond the runs, times in their order), and which days a month has. Texts that are no JSON have no
value to be valid. Prints how many of each kind there were, and the first one that is otherwise;
ends with 1 then.

It takes no script of your own: lazbendix explain does. It needs jsonschema (the system's package
python3-jsonschema is for /usr/bin/python3); nothing else here does.
"""
import argparse
import collections
import json
import os
import random
import re
import sys
from collections.abc import Iterator
from typing import Any

import jsonschema

from reference import days
from reference.json_text import NotJson, read_json
from reference.script import Refusal, read_value

HERE = os.path.dirname(os.path.abspath(__file__))
TOP = os.path.join(HERE, "..")


# Refusals that a schema cannot say where the JSON value is the only thing that it sees.
UNSAID = re.compile("bad (state|time|turn|follow) .*|double name .*|unknown name .*")


def with_whole_ends(schema: dict[str, Any]) -> dict[str, Any]:
    """The schema's object with `$` in patterns as schemas mean it: the end, and not a line feed
    before it.
    """
    if isinstance(schema.get("pattern"), str):
        schema["pattern"] = re.sub(r"\$$", r"\\Z", schema["pattern"])
    return schema


def with_whole_numbers(value: Any) -> Any:
    """The value with numbers as a schema sees them: 1.0 is 1."""
    if isinstance(value, dict):
        return {name: with_whole_numbers(part) for name, part in value.items()}
    if isinstance(value, list):
        return [with_whole_numbers(part) for part in value]
    return int(value) if isinstance(value, float) and value.is_integer() else value


def with_pairs_in_order(value: Any) -> Any:
    """The value with each pair of a `down` in ascending order, where it is a pair of two numbers
    that differ or not.
    """
    for device in (
        value.get("devices", [])
        if isinstance(value, dict) and isinstance(value.get("devices"), list)
        else []
    ):
        downs = device.get("down") if isinstance(device, dict) else None
        for pair in downs if isinstance(downs, list) else []:
            if (
                isinstance(pair, list)
                and len(pair) == 2
                and all(type(end) is int for end in pair)
                and pair[0] >= pair[1] >= 1
            ):
                pair[:] = [1, max(2, pair[0])]
    return value


def refusal_of(value: Any) -> str | None:
    try:
        read_value(value)
        return None
    except Refusal as refusal:
        return str(refusal)


def texts(count: int, seed: int) -> Iterator[bytes]:
    with open(os.path.join(TOP, "crates", "script_table", "stdin"), "rb") as table:
        yield from table.read().split(b"\n")
    folder = os.path.join(TOP, "examples")
    for name in sorted(os.listdir(folder)):
        if name.endswith(".json"):
            with open(os.path.join(folder, name), "rb") as stored:
                yield stored.read()
    draw = random.Random(seed)
    for k in range(2 * count):
        script = days.with_picks(draw, days.day(draw))
        script = script if k < count else days.guarded(draw, script)
        yield (days.spoiled(draw, script) if k % 4 else json.dumps(script)).encode()


def judged(value: Any, is_valid: bool) -> tuple[str, bool]:
    """What a value is by the reading and by the schema, and whether the two agree."""
    refusal = refusal_of(value)
    # what is left of the refusal where the value is seen as a schema sees it
    said = refusal and refusal_of(with_pairs_in_order(with_whole_numbers(value)))
    if refusal is None:
        kind, is_right = "read", is_valid
    elif said is None or UNSAID.fullmatch(said):
        kind, is_right = "refused for what a schema cannot say", True
    else:
        kind, is_right = "refused for what a schema says", not is_valid
    return f"{kind}, {'valid' if is_valid else 'invalid'}", is_right


def main() -> None:
    options = argparse.ArgumentParser(
        description=__doc__, formatter_class=argparse.RawDescriptionHelpFormatter
    )
    options.add_argument("days", type=int, nargs="?", default=4000)
    options.add_argument("seed", type=int, nargs="?", default=1)
    asked = options.parse_args()
    with open(os.path.join(TOP, "docs", "script.schema.json"), encoding="utf-8") as stored:
        schema = json.loads(stored.read(), object_hook=with_whole_ends)
    jsonschema.Draft7Validator.check_schema(schema)
    validator, counts = jsonschema.Draft7Validator(schema), collections.Counter[str]()
    for text in texts(asked.days, asked.seed):
        try:
            value = read_json(text)
        except NotJson:
            counts["no JSON"] += 1
            continue
        kind, is_right = judged(value, validator.is_valid(value))
        counts[kind] += 1
        if not is_right:
            sys.exit(f"{kind}\n{text.decode(errors='replace')}")
    for kind, number in sorted(counts.items()):
        print(f"{number:6} {kind}")


if __name__ == "__main__":
    main()
