"""Disks on which a journal is kept: one in memory, whose calls fail from a number on, and a file of
the system.
"""
from __future__ import annotations

import os
from typing import Protocol

NAME = "home.journal"


class Disk(Protocol):
    """What a journal is kept on. Each call raises `OSError` where it fails."""

    def length(self) -> int:
        """How many bytes it holds."""

    def read(self, at: int, most: int) -> bytes:
        """The bytes from this place on, at most so many."""

    def write_at(self, at: int, data: bytes) -> None:
        """Puts these bytes at this place."""

    def sync(self) -> None:
        """What was written stays, whatever comes."""


class BytesDisk:
    """Bytes in memory. Every call from number `fails` on fails, counted from 1, and each write for
    which there is no room.
    """

    def __init__(self, data: bytes = b"", fails: int = 0, room: int = 1 << 62) -> None:
        self.held = self.synced = data
        self.fails, self.room, self.call = fails, max(room, len(data)), 0

    def count(self) -> bool:
        """Counts a call. Whether it fails."""
        self.call += 1
        return 0 < self.fails <= self.call

    def need(self, true: bool) -> None:
        if not true:
            raise OSError

    def length(self) -> int:
        self.need(not self.count())
        return len(self.held)

    def read(self, at: int, most: int) -> bytes:
        self.need(not self.count())
        return self.held[at : at + most]

    def write_at(self, at: int, data: bytes) -> None:
        """A write that fails is there all the same, but for one for which there is no room."""
        fails = self.count()
        self.need(at + len(data) <= self.room)
        self.held = self.held[:at] + data + self.held[at + len(data) :]
        self.need(not fails)

    def sync(self) -> None:
        self.need(not self.count())
        self.synced = self.held

    def crashed(self, kept: bool) -> BytesDisk:
        """What a crash leaves of it, with the writes since the last sync or without."""
        return BytesDisk(self.held if kept else self.synced)


class FileDisk:
    """The file `home.journal` in the current folder, which the first call opens, and makes where it
    is not there.
    """

    def __init__(self) -> None:
        self.opened: int | None = None

    def file(self) -> int:
        if self.opened is None:
            self.opened = os.open(NAME, os.O_RDWR | os.O_CREAT, 0o666)
            folder = os.open(".", os.O_RDONLY)
            os.fsync(folder)
            os.close(folder)
        return self.opened

    def length(self) -> int:
        return os.fstat(self.file()).st_size

    def read(self, at: int, most: int) -> bytes:
        data = b""
        while piece := os.pread(self.file(), most - len(data), at + len(data)):
            data += piece
        return data

    def write_at(self, at: int, data: bytes) -> None:
        while data:
            count = os.pwrite(self.file(), data, at)
            at, data = at + count, data[count:]

    def sync(self) -> None:
        os.fsync(self.file())
