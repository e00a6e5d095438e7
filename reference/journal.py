#!/usr/bin/env python3
"""The file of a journal: the states of a home after each of its windows, each in a slot of the
file.

    python3 -m reference.journal SCRIPT FILE
    python3 -m reference.journal check

The first one prints the states that the file keeps for the script, or what is damaged; the second
one judges the bytes that stand in the tests of the journal.

A slot begins with its gate, a byte. Behind it stand the number of the window, from 1, in four
bytes, the number of devices in two, and for each device its value in four and whether it is up in
one; the low byte of a number comes first. A slot is open where its gate is 1 and the gate of the
next one is there, whatever that is.
"""
from __future__ import annotations

import os
import re
import sys
from collections.abc import Sequence

from .disks import Disk
from .script import DeviceText, Refusal, read_script
from .serial import Kind, Stand

HERE = os.path.dirname(os.path.realpath(__file__))
OPEN, SHUT = b"\1", b"\0"


class Damaged(Exception):
    """A slot is open and not good, the first of them at this place, counted from 0."""


def state_bytes(number: int, home: Sequence[Stand]) -> bytes:
    """What stands behind the gate of the slot that tells this state, after the window of this
    number.
    """
    stands = (stand.value.to_bytes(4, "little") + bytes([stand.up]) for stand in home)
    return number.to_bytes(4, "little") + len(home).to_bytes(2, "little") + b"".join(stands)


def file_bytes(homes: list[list[Stand]]) -> bytes:
    """The file in which these states were kept, one after another."""
    return b"".join(OPEN + state_bytes(number, home) for number, home in enumerate(homes, 1)) + SHUT


def read_stand(kind: Kind, data: bytes) -> Stand | None:
    """Where a device of the kind stands by these five bytes, or none."""
    value, up = int.from_bytes(data[:4], "little"), data[4]
    return Stand(value, up == 1) if kind.has_value(value) and up <= 1 else None


def read_state(kinds: list[Kind], number: int, data: bytes) -> list[Stand] | None:
    """The state that stands behind the gate of this window's slot, or none."""
    stands = [
        read_stand(kind, data[at : at + 5]) for kind, at in zip(kinds, range(6, len(data), 5))
    ]
    good = int.from_bytes(data[:4], "little") == number and int.from_bytes(
        data[4:6], "little"
    ) == len(kinds)
    found = [stand for stand in stands if stand is not None]
    return found if good and len(found) == len(stands) else None


def kept_states(kinds: list[Kind], most: int, data: bytes) -> list[list[Stand]]:
    """The states that a file with these bytes keeps for a script with at most so many windows."""
    size, homes = 7 + 5 * len(kinds), list[list[Stand]]()
    while len(homes) < most and data[:1] == OPEN and len(data) > size:
        home = read_state(kinds, len(homes) + 1, data[1:size])
        if home is None:
            raise Damaged(len(homes))
        homes.append(home)
        data = data[size:]
    return homes


class Journal:
    """The states that a disk keeps, of at most so many windows. `Damaged` and `OSError` come as it
    is opened.
    """

    def __init__(self, disk: Disk, kinds: list[Kind], most: int) -> None:
        self.disk, self.size = disk, 7 + 5 * len(kinds)
        disk.sync()
        length = min(disk.length(), most * self.size + 1)
        data = disk.read(0, length) if length else b""
        self.homes = kept_states(kinds, most, data)
        if len(self.homes) < most and data[self.gate() :][:1] in (b"", OPEN):
            disk.write_at(self.gate(), SHUT)
            disk.sync()

    def gate(self) -> int:
        """Where the gate of the next slot is."""
        return len(self.homes) * self.size

    def keep(self, home: Sequence[Stand]) -> None:
        """Keeps one state more. It is kept once the gate is on the disk."""
        self.disk.write_at(self.gate() + 1, state_bytes(len(self.homes) + 1, home) + SHUT)
        self.disk.sync()
        self.disk.write_at(self.gate(), OPEN)
        self.disk.sync()
        self.homes.append(list(home))


# The bytes that stand in the tests

TESTS = os.path.join(HERE, "..", "crates", "rule_tests", "src", "journals.rt")
LAMP, HEAT = Kind(0, 1), Kind(10, 30)
ONE_LAMP = [[Stand(1, True)]]
TWO_DEVICES = [[Stand(0, True), Stand(18, True)], [Stand(1, True), Stand(25, False)]]
TORN_TO = (0, 1, 2, 255)


def outcome(kinds: list[Kind], most: int, data: bytes) -> str:
    """How many states are kept, as a digit, or a letter for the place of the first slot that is not
    good.
    """
    try:
        return str(len(kept_states(kinds, most, data)))
    except Damaged as damaged:
        return "abcdefgh"[damaged.args[0]]


def torn_outcomes(kinds: list[Kind], most: int, data: bytes, byte: int) -> str:
    """The outcome of the file with each of its bytes in turn set to this one."""
    return "".join(
        outcome(kinds, most, data[:at] + bytes([byte]) + data[at + 1 :]) for at in range(len(data))
    )


def check() -> None:
    """Whether the bytes and the outcomes that stand in the tests are those of these definitions."""
    with open(TESTS, encoding="utf-8") as file:
        text = file.read()

    def stored(name: str) -> str:
        found = re.search(rf"const {name}\b[^=]*=\s*(.*?);", text, re.S)
        return found[1] if found else ""

    two = file_bytes(TWO_DEVICES)
    expected = {
        "ONE_LAMP": list(file_bytes(ONE_LAMP)),
        "TWO_DEVICES": list(two),
        "TORN": [torn_outcomes([LAMP, HEAT], 2, two, byte) for byte in TORN_TO],
        "CUT": "".join(outcome([LAMP, HEAT], 2, two[:size]) for size in range(len(two) + 1)),
    }
    found = {
        "ONE_LAMP": [int(it) for it in re.findall(r"\d+", stored("ONE_LAMP"))],
        "TWO_DEVICES": [int(it) for it in re.findall(r"\d+", stored("TWO_DEVICES"))],
        "TORN": re.findall(r'"(\w*)"', stored("TORN")),
        "CUT": "".join(re.findall(r'"(\w*)"', stored("CUT"))),
    }
    for name, value in expected.items():
        agrees = found[name] == value
        print(f"{name} {'agrees' if agrees else f'differs: {value}'}")
        if not agrees:
            sys.exit(1)


def told(device: DeviceText, stand: Stand) -> str:
    value = device.states[stand.value] if device.states else stand.value
    return f"{device.name}={value}{'' if stand.up else '!'}"


def main() -> None:
    if sys.argv[1:2] in (["-h"], ["--help"]):
        print(__doc__)
        return
    if len(sys.argv) != 3 and sys.argv[1:] != ["check"]:
        sys.exit(
            "journal: python3 -m reference.journal SCRIPT FILE, or python3 -m reference.journal "
            "check"
        )
    if sys.argv[1:] == ["check"]:
        return check()
    with open(sys.argv[1], "rb") as script, open(sys.argv[2], "rb") as file:
        try:
            day, data = read_script(script.read()), file.read()
        except Refusal as refusal:
            sys.exit(f"script: {refusal}")
    try:
        homes = kept_states([device.kind for device in day.devices], len(day.windows), data)
    except Damaged as damaged:
        sys.exit(f"damaged {damaged.args[0] + 1}")
    print(f"kept {len(homes)}")
    for number, home in enumerate(homes, 1):
        print(" ".join([f"{number}", *map(told, day.devices, home)]))


if __name__ == "__main__":
    main()
