"""The bytes of a call are those of docs/CALL-LOG.md, and numbers of no call have none."""
import os
import random
import struct
import subprocess
import sys
import tempfile
import unittest
from ctypes import byref, c_uint8
from typing import Callable

HERE = os.path.dirname(os.path.abspath(__file__))
PYTHON = os.path.join(HERE, "..", "..", "..", "python")
sys.path[:0] = [PYTHON]

from lazbendix import Refused, Status, logged
from lazbendix._calls import EXPORTS, LIBRARY, ToldCall
from lazbendix.logged_calls import LoggedCall
from lazbendix.told import Answer, Dead, Found, Worked

CALLS = 10_000
PAGE = struct.Struct("<BBHIQQ")
Numbers = tuple[int, int, int, int, int, int]


def drawn(draw: random.Random) -> tuple[bytes, Numbers]:
    """The bytes that the package makes of a drawn call, and its numbers by the table of the page."""

    def number(bits: int) -> int:
        numbers = [0, 1, (1 << bits) - 1, draw.randrange(1 << bits)]
        return draw.choice(numbers)

    device, value = number(16), number(32)
    year, month, day = draw.randrange(10_000), draw.randrange(1, 13), draw.randrange(1, 32)
    hour, minute, second = draw.randrange(24), draw.randrange(60), draw.randrange(60)
    at = f"{year:04}-{month:02}-{day:02}T{hour:02}:{minute:02}:{second:02}"
    time = int(f"{year}{month:02}{day:02}{hour:02}{minute:02}{second:02}")
    follows, ticket, moment = number(32), number(64), number(64)
    answers: list[tuple[Answer, int, int]] = [(Worked(), 1, 0), (Found(value), 2, value), (Dead(), 3, 0)]
    answer, sort, found = draw.choice(answers)
    calls: list[tuple[bytes, Numbers]] = [
        (logged.began(at, value), (1, 0, 0, value, time, 0)),
        (logged.added(value, follows), (2, int(follows > 0), 0, value, follows, 0)),
        (logged.opened(value), (3, 0, 0, value, 0, 0)),
        (logged.took(value, moment), (4, 0, 0, value, 0, moment)),
        (logged.gave(device, ticket, answer, moment), (5, sort, device, found, ticket, moment)),
        (logged.probed(device), (6, 0, device, 0, 0, 0)),
        (logged.closed(), (7, 0, 0, 0, 0, 0)),
        (logged.restood(device, value), (8, 0, device, value, 0, 0)),
        (logged.lost(device), (9, 0, device, 0, 0, 0)),
    ]
    return draw.choice(calls)


def asked(numbers: list[int]) -> tuple[Status, bytes]:
    """What the library answers to these numbers, in the order of a record, and the room afterwards."""
    kind, sort, device, value, first, second = numbers
    call, room = ToldCall(first, second, kind, sort, device, value), (c_uint8 * logged.CALL_SIZE)()
    status = LIBRARY.lazbendix_log(byref(call), room, len(room))
    return Status(status), bytes(room)


class Logged(unittest.TestCase):
    def test_the_records_of_the_page(self) -> None:
        page = ("04 00 00 00 01 00 00 00 00 00 00 00 00 00 00 00 dc 05 00 00 00 00 00 00"
                "05 01 03 00 00 00 00 00 07 00 00 00 00 00 00 00 d6 06 00 00 00 00 00 00")
        self.assertEqual(logged.took(1, 1500) + logged.gave(3, 7, Worked(), 1750), bytes.fromhex(page))

    def test_drawn_calls_have_the_bytes_of_the_page(self) -> None:
        draw = random.Random(1)
        for _ in range(CALLS):
            record, numbers = drawn(draw)
            self.assertEqual(record, PAGE.pack(*numbers))

    def test_a_time_of_any_form_that_a_script_may_have(self) -> None:
        times = [("2012-12-01T09:05", 20121201090500), ("2012-12-02", 20121202000000), ("20121202 070530,25", 20121202070530),
                 ("2012-12-03T07:05:60", 20121203070559), ("+002012-12-03T08+02:30:15", 20121203080000),
                 ("2012-12-03T09:05:00[+02]", 20121203090500),
                 ("0000-01-03t10:00:00.123456789-0230[!Etc/GMT-2][u-ca=iso8601]", 103100000)]
        for at, number in times:
            self.assertEqual(logged.began(at, 3), PAGE.pack(1, 0, 0, 3, number, 0), at)
        for at in ("2012-12-04T", "2012-12-04T09:05:61", "2012-12-04T09:05Z", "-000001-12-04T09:05:00", ""):
            with self.assertRaises(Refused) as refused:
                logged.began(at)
            self.assertIs(refused.exception.status, Status.BAD_TIME, at)

    def test_numbers_of_no_call_are_refused(self) -> None:
        empty = {1: (1, 2, 5), 3: (1, 2, 4, 5), 4: (1, 2, 4), 6: (1, 3, 4, 5), 7: (1, 2, 3, 4, 5), 8: (1, 4, 5), 9: (1, 3, 4, 5)}
        draw, refused = random.Random(2), 0
        while refused < CALLS:
            numbers = list(drawn(draw)[1])
            if numbers[0] in empty:
                numbers[draw.choice(empty[numbers[0]])] = draw.randrange(1, 2**32)
                self.assertEqual(asked(numbers), (Status.NO_CALL, bytes(logged.CALL_SIZE)))
                with self.assertRaises(ValueError):
                    LoggedCall(*numbers).to_bytes()
                refused += 1

    def test_numbers_that_are_too_large_are_refused(self) -> None:
        calls: list[Callable[[], bytes]] = [
            lambda: logged.took(2**32 + 1, 5), lambda: logged.took(1, 2**64 + 5), lambda: logged.opened(-1),
            lambda: logged.added(1, 2**32), lambda: logged.lost(2**16), lambda: logged.probed(2**32)]
        for call in calls:
            self.assertRaises(ValueError, call)


class Older(unittest.TestCase):
    def test_a_library_that_lacks_an_export_is_refused_by_its_name(self) -> None:
        for lacks in ("log", "reopen", None):
            with tempfile.TemporaryDirectory() as folder:
                source, made = os.path.join(folder, "older.c"), os.path.join(folder, "older.so")
                with open(source, "w", encoding="utf-8") as file:
                    file.writelines(f"int lazbendix_{name}(void) {{ return 0; }}\n" for name in EXPORTS if name != lacks)
                subprocess.run(["cc", "-shared", "-fPIC", source, "-o", made], check=True)
                environment = os.environ | {"PYTHONPATH": PYTHON, "LAZBENDIX_LIBRARY": made}
                words = [sys.executable, "-c", "from lazbendix import Hub"]
                ran = subprocess.run(words, env=environment, capture_output=True, text=True)
                wanted = f"ImportError: {made} has no lazbendix_{lacks}: it is older than this package" if lacks else ""
                self.assertEqual(ran.stderr.strip().split("\n")[-1], wanted)


if __name__ == "__main__":
    unittest.main()
