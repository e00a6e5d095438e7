"""The calls of the program: a source of bytes is read, a sink is written, and a status and a line
tell how it ended.
"""
from __future__ import annotations

from collections.abc import Callable, Iterable, Iterator, Sequence
from typing import Any, Protocol, TypeVar

from . import days
from .check import Differs, check_record
from .disks import BytesDisk, Disk
from .history import Mode
from .journal import Damaged, Journal
from .record import Told, board_text, head_text, kept_text, total_text, window_text
from .replay import Home
from .rooms import Cross, joined_records, need_no_crossing
from .script import LIMITS, Refusal, Script, read_script
from .serial import Stand
from .words import Words, read_words

Made = TypeVar("Made")
PIECE = 4096
MOST_CHECKED = 67_108_864  # bytes of a script and its record


class Source(Protocol):
    """What is read from."""

    def read(self, most: int) -> bytes:
        """The next bytes, at most so many; none at the end. Raises `OSError`."""


class Sink(Protocol):
    """What is written to."""

    def write(self, data: bytes) -> int:
        """Takes first bytes, and answers how many. Raises `OSError`."""


class Fault(Exception):
    def __init__(self, status: int, line: str) -> None:
        super().__init__(line)
        self.status, self.line = status, line


class BytesSource:
    """Bytes in memory. The call with the number `fails`, from 1, fails; each call gives at most so
    many bytes.
    """

    def __init__(self, data: bytes, fails: int = 0, most: int = 65_536) -> None:
        self.data, self.fails, self.most, self.call = data, fails, most, 0

    def read(self, most: int) -> bytes:
        self.call += 1
        if self.call == self.fails:
            raise OSError
        count = min(most, self.most)
        piece, self.data = self.data[:count], self.data[count:]
        return piece


class BytesSink:
    """Holds what is written, up to its room."""

    def __init__(self, room: int = 1 << 62, fails: int = 0, most: int = 1 << 62) -> None:
        self.held, self.room, self.fails, self.most, self.call = b"", room, fails, most, 0

    def write(self, data: bytes) -> int:
        self.call += 1
        if self.call == self.fails:
            raise OSError
        count = min(len(data), self.most, self.room - len(self.held))
        self.held += data[:count]
        return count


def read_to_end(source: Source, limit: int) -> bytes:
    data = bytearray()
    while len(data) <= limit:
        try:
            piece = source.read(min(PIECE, limit + 1 - len(data)))
        except OSError:
            raise Fault(3, "read") from None
        if not piece:
            return bytes(data)
        data += piece
    raise Fault(1, f"script: too many bytes {limit + 1} of {limit}")


def write_all(sink: Sink, text: str) -> None:
    data = text.encode()
    while data:
        try:
            count = sink.write(data)
        except OSError:
            count = 0
        if count == 0:
            raise Fault(4, "write")
        data = data[count:]


def read(data: bytes) -> Script:
    try:
        return read_script(data)
    except Refusal as refusal:
        raise Fault(1, f"script: {refusal}") from None


def on_disk(call: Callable[..., Made], *given: Any) -> Made:
    try:
        return call(*given)
    except Damaged as damaged:
        raise Fault(10, f"damaged {damaged.args[0] + 1}") from None
    except OSError:
        raise Fault(9, "disk") from None


def resumed_records(
    script: Script, homes: list[list[Stand]], mode: Mode
) -> Iterator[tuple[int, Told]]:
    """Plays the windows behind those after which these states were kept."""
    home, begin = Home(script), len(homes)
    if homes:
        home.resume(homes[-1])
    for number, window in enumerate(script.windows[begin:], begin):
        yield number, home.replay(window, mode)


class Call:
    """A call that was made: its status, its line, and the records of its windows where it came to a
    day.
    """

    def __init__(
        self,
        words: list[str],
        source: Source,
        sink: Sink,
        disk: Disk | None = None,
    ) -> None:
        self.source, self.sink, self.disk = source, sink, disk or BytesDisk()
        self.records, self.status = list[Told](), 0
        self.script: Script | None = None
        self.line: str | None = None
        try:
            self.make(words)
        except Fault as fault:
            self.status, self.line = fault.status, fault.line

    def make(self, words: list[str]) -> None:
        asked = read_words(words)
        if asked is None:
            raise Fault(2, "words")
        match asked.command:
            case "check":
                self.check()
            case "trial":
                self.trial(asked.windows)
            case _:
                self.play(asked, read(read_to_end(self.source, LIMITS["bytes"])))

    def play(self, asked: Words, script: Script) -> None:
        """Plays a day. That of `run`, `watch` and `rooms` is one of those which threads may come
        to.
        """
        match asked.command:
            case "keep":
                self.keep(script, asked)
            case "rooms":
                self.rooms(script, asked)
            case _:
                self.replay(script, asked, self.sink)
                if asked.command == "watch":
                    write_all(self.sink, board_text(self.records))

    def replay(self, script: Script, asked: Words, sink: Sink) -> None:
        home = Home(script)
        records = (home.replay(window, asked.mode) for window in script.windows)
        self.write_day(script, head_text(asked.mode), enumerate(records), asked, sink)

    def keep(self, script: Script, asked: Words) -> None:
        """Goes on behind the windows that the disk keeps. The state after each is kept before its
        text is written.
        """
        journal = on_disk(
            Journal, self.disk, [device.kind for device in script.devices], len(script.windows)
        )
        head = head_text(asked.mode) + kept_text(len(journal.homes))
        records = resumed_records(script, journal.homes, asked.mode)
        self.write_day(
            script, head, records, asked, self.sink, lambda home: on_disk(journal.keep, home)
        )

    def rooms(self, script: Script, asked: Words) -> None:
        try:
            need_no_crossing(script)
        except Cross as cross:
            raise Fault(11, str(cross)) from None
        self.write_day(
            script,
            head_text(asked.mode),
            enumerate(joined_records(script, asked.mode)),
            asked,
            self.sink,
        )

    def write_day(
        self,
        script: Script,
        head: str,
        records: Iterable[tuple[int, Told]],
        asked: Words,
        sink: Sink,
        keep: Callable[[Sequence[Stand]], None] = lambda home: None,
    ) -> None:
        """Writes a day while its windows are played: each record comes with the number of its
        window, from 0.
        """
        self.script, self.records = script, []
        write_all(sink, head)
        for number, record in records:
            self.records.append(record)
            keep(record.last)
            write_all(sink, window_text(script, number, record, asked.mode, asked.trace))
        write_all(sink, total_text(self.records))

    def check(self) -> None:
        script, record = divided(read_to_end(self.source, MOST_CHECKED))
        try:
            check_record(read(script), record)
        except Differs as differs:
            raise Fault(7, f"check: {differs}") from None
        write_all(self.sink, "agrees\n")

    def trial(self, windows: int) -> None:
        """A made-up day is played and checked."""
        held = BytesSink()
        script, agree = days.trial(windows), windows
        self.replay(script, Words("replay", days.TRIAL_MODE), held)
        try:
            check_record(script, held.held)
        except Differs as differs:
            agree = max(differs.window - 1, 0)
        words = total_text(self.records).split()[1:]
        write_all(self.sink, f"trial {windows} {' '.join(words)} agree {agree}\n")


def divided(data: bytes) -> tuple[bytes, bytes]:
    """The script and the record, which the first line that is `%%` divides."""
    begin = b"\n" + data
    at = begin.find(b"\n%%\n")
    if at < 0:
        at = len(begin) - 3 if begin.endswith(b"\n%%") else len(begin)
    return data[:at], data[at + 3 :]
