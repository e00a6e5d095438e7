"""A file that keeps the calls of a home.

The file is a head of 64 bytes and records of 32. A record is a call of 24 bytes (docs/CALL-LOG.md),
a checksum of what the calls answered so far, and a checksum of the record chained to the one before
it. `CallLog.hub` makes the home of a log again.
"""
import fcntl
import hashlib
import os
import struct
import sys
import threading
import zlib
from dataclasses import dataclass
from enum import IntEnum
from types import TracebackType
from typing import TYPE_CHECKING, NamedTuple

from lazbendix.logged_calls import LAYOUT, OWN, CallKind, LoggedCall
from lazbendix.told import Model, Scheduler

if TYPE_CHECKING:
    from lazbendix.logged_hubs import LoggedHub

MAGIC = b"lazcall1"
HEAD = struct.Struct("<8sIII32s8x")  # magic word, version, model, scheduler, SHA-256 of the script
CHECK = struct.Struct("<I")
HEAD_SIZE, RECORD_SIZE = HEAD.size + CHECK.size, LAYOUT.size + 2 * CHECK.size
CALL_SIZE, ANSWERS_END = LAYOUT.size, LAYOUT.size + CHECK.size


class LogFault(IntEnum):
    """Why a log is refused."""

    IN_USE = 1  # another process, or this one, has it open
    NOT_A_LOG = 2  # the file is none, or its head is damaged
    OTHER_SCRIPT = 3
    OTHER_VERSION = 4
    OTHER_MODE = 5
    DAMAGED = 6  # a record that was synced is not what was written
    DIFFERS = 7  # a call that was made again was refused, or answered something else
    FAILED = 8  # the disk refused a write or a sync
    CLOSED = 9


class LogRefused(Exception):
    """The log is refused, or refuses: why, and at which record, from 0, where it is one."""

    def __init__(self, fault: LogFault, detail: str, record: int | None = None) -> None:
        place = "" if record is None else f", record {record}"
        super().__init__(f"{fault.name}{place}: {detail}")
        self.fault, self.detail, self.record = fault, detail, record


@dataclass(frozen=True)
class Head:
    """What a log belongs to."""

    version: int
    mode: tuple[int, int]
    script: bytes

    def to_bytes(self) -> bytes:
        head = HEAD.pack(MAGIC, self.version, *self.mode, self.script)
        return head + CHECK.pack(zlib.crc32(head))


class Record(NamedTuple):
    call: LoggedCall
    answers: int  # a checksum of what was answered, up to this call


def head_of(script: bytes, model: Model, scheduler: Scheduler, version: int) -> Head:
    return Head(version, (int(model), int(scheduler)), hashlib.sha256(script).digest())


def read_head(data: bytes) -> Head:
    """The head in front of a file's bytes. Raises `LogRefused` where there is none."""
    head = data[: HEAD.size]
    if len(data) < HEAD_SIZE or data[HEAD.size : HEAD_SIZE] != CHECK.pack(zlib.crc32(head)):
        raise LogRefused(LogFault.NOT_A_LOG, "the head is not that of a log")
    magic, version, model, scheduler, script = HEAD.unpack(head)
    if magic != MAGIC:
        raise LogRefused(LogFault.NOT_A_LOG, f"the magic word is {magic!r}")
    return Head(version, (model, scheduler), script)


def good_records(data: bytes) -> tuple[list[Record], int]:
    """The records of a file up to the first that is not good, and how many of them a later one says
    to have been synced. Raises `LogRefused` where the one that is not good was synced too: that is
    damage, and not the torn end of a write.
    """
    records: list[Record] = []
    synced, at = 0, HEAD_SIZE
    while at + RECORD_SIZE <= len(data) and is_good(data, at):
        record = record_at(data, at)
        records.append(record)
        if record.call.kind == CallKind.SYNCED:
            synced = record.call.first
        at += RECORD_SIZE
    bad = len(records)
    for later in range(at + RECORD_SIZE, len(data) - RECORD_SIZE + 1, RECORD_SIZE):
        call = record_at(data, later).call
        if call.kind == CallKind.SYNCED and call.first > bad and is_good(data, later):
            raise LogRefused(LogFault.DAMAGED, "it was synced, and is not what was written", bad)
    return records, synced


def is_good(data: bytes, at: int) -> bool:
    """Whether the record at this place has the checksum that follows from the one before it."""
    (before,) = CHECK.unpack_from(data, at - CHECK.size)
    body, check = data[at : at + ANSWERS_END], data[at + ANSWERS_END : at + RECORD_SIZE]
    return CHECK.pack(zlib.crc32(body, before)) == check


def record_at(data: bytes, at: int) -> Record:
    return Record(
        LoggedCall(*LAYOUT.unpack_from(data, at)), CHECK.unpack_from(data, at + CALL_SIZE)[0]
    )


# The calls of the system. A test puts others in their place.


def write_at(file: int, data: bytes, at: int) -> None:
    """Writes all of the bytes at this place."""
    written = 0
    while written < len(data):
        written += os.pwrite(file, data[written:], at + written)


def sync_file(file: int) -> None:
    """What was written to the file, and its length, is on the disk when this returns."""
    if sys.platform == "darwin":
        fcntl.fcntl(file, fcntl.F_FULLFSYNC)
    else:
        os.fdatasync(file)


def sync_folder(path: str) -> None:
    """The names in the folder of this path are on the disk when this returns."""
    folder = os.open(os.path.dirname(os.path.abspath(path)), os.O_RDONLY)
    try:
        os.fsync(folder)
    finally:
        os.close(folder)


class CallLog:
    """The log of calls at a path, which this process holds until `close`. Beside it stands a file
    with the ending `.lock`.

    What is appended is in memory until `sync`, which writes and syncs all of it at once. After a
    write or a sync that failed every call raises `LogRefused` with FAILED: what is on the disk is
    found out by opening the log anew. Several threads may use one.
    """

    def __init__(self, path: str | os.PathLike[str]) -> None:
        """Raises `LogRefused` with IN_USE, NOT_A_LOG or DAMAGED, and then leaves the file as it
        is."""
        self.path = os.fspath(path)
        self._lock, self._sync_lock = threading.RLock(), threading.Lock()
        self._buffer = bytearray()
        self._check = self.durable = self.count = self.syncs = self.written = 0
        self._failure: BaseException | None = None
        self._file: int | None = None
        self._holder = hold(f"{self.path}.lock")
        try:
            self._data = data = read_file(self.path)
            self.head = None if data is None else read_head(data)
            self._found, self._synced = ([], 0) if data is None else good_records(data)
        except BaseException:
            os.close(self._holder)
            raise

    # Its end.

    def close(self) -> None:
        """Syncs what was appended, where nothing has failed, and lets go of the log."""
        holder, self._holder = self._holder, -1
        if holder < 0:
            return
        try:
            if self._file is not None and self._failure is None:
                self.sync()
        finally:
            if self._file is not None:
                os.close(self._file)
            os.close(holder)
            self.fail(LogRefused(LogFault.CLOSED, "the log was closed"))

    def __enter__(self) -> "CallLog":
        return self

    def __exit__(
        self,
        kind: type[BaseException] | None,
        value: BaseException | None,
        trace: TracebackType | None,
    ) -> None:
        self.close()

    # Its home.

    def hub(
        self,
        script: bytes | str,
        model: Model = Model.EVENTUAL,
        scheduler: Scheduler = Scheduler.FCFS,
        other_version: bool = False,
    ) -> "LoggedHub":
        """The home that the script and the calls of the log make. A log that is not there is begun.

        Raises what `Hub` raises, and `LogRefused` with OTHER_SCRIPT, OTHER_MODE, or OTHER_VERSION
        where the log is another library's; with `other_version` such a log is tried, and is as good
        as another one where each call answers what it did. Where a call does not: DIFFERS.
        """
        from lazbendix.logged_hubs import LoggedHub

        data = script.encode() if isinstance(script, str) else bytes(script)
        return LoggedHub(self, data, model, scheduler, other_version)

    def start(self, head: Head, other_version: bool) -> list[Record]:
        """Makes the log one to append to, and hands out its records, once. What follows the good
        records is cut off; those of which no later one says that they were synced are written once
        more, so that a sync that failed in a former life does no harm.
        """
        self.may_go_on()
        if self._file is not None:
            raise LogRefused(LogFault.IN_USE, "the log has a home")
        if self.head is None or self._data is None:
            self.replace(head, [])
            return []
        belongs(self.head, head, other_version)
        records, self._found = self._found, []
        data, self._data = self._data, None
        tail, end = (HEAD_SIZE + RECORD_SIZE * count for count in (self._synced, len(records)))
        (self._check,) = CHECK.unpack_from(data, end - CHECK.size)
        self._file = os.open(self.path, os.O_RDWR | os.O_CLOEXEC)
        try:
            write_at(self._file, data[tail:end], tail)
            os.ftruncate(self._file, end)
            sync_file(self._file)
        except OSError as error:
            raise self.fail(error) from error
        self.count = self.durable = len(records)
        return records

    def replace(self, head: Head, records: list[Record]) -> None:
        """A new file with these records takes the place of the log, whole or not at all. Where that
        fails before the old one is gone, the log goes on as it was.
        """
        self.may_go_on()
        begun = self._check
        try:
            self._check = zlib.crc32(head_bytes(head))
            data = head.to_bytes() + b"".join(self._packed(*record) for record in records)
            file = new_file(self.path, data)
        except (OSError, ValueError) as error:
            self._check = begun
            raise LogRefused(LogFault.FAILED, f"no new log: {error}") from error
        old, self._file = self._file, file
        if old is not None:
            os.close(old)
        try:
            sync_folder(self.path)
        except OSError as error:
            raise self.fail(error) from error
        self.head, self.count, self.durable = head, len(records), len(records)
        self._buffer.clear()

    # Its records.

    def append(self, call: LoggedCall, answers: int) -> None:
        with self._lock:
            self.may_go_on()
            self._buffer += self._packed(call, answers)
            self.count += 1

    def _packed(self, call: LoggedCall, answers: int) -> bytes:
        """The bytes of the next record."""
        body = call.to_bytes() + CHECK.pack(answers)
        self._check = zlib.crc32(body, self._check)
        return body + CHECK.pack(self._check)

    def sync(self) -> bool:
        """What was appended before is on the disk when this returns; whether there was anything.
        Raises `LogRefused` with FAILED, and then nothing may be let out any more.
        """
        with self._sync_lock:
            with self._lock:
                self.may_go_on()
                if not self._buffer or self._file is None:
                    return False
                self.append(LoggedCall(CallKind.SYNCED, first=self.durable), 0)
                data, count, file = bytes(self._buffer), self.count, self._file
                self._buffer.clear()
            try:
                write_at(file, data, HEAD_SIZE + RECORD_SIZE * self.durable)
                sync_file(file)
            except BaseException as error:
                raise self.fail(error) from error
            self.durable, self.syncs, self.written = count, self.syncs + 1, self.written + len(data)
            return True

    def may_go_on(self) -> None:
        """Raises `LogRefused` where the log has failed or was closed."""
        if isinstance(self._failure, LogRefused):
            raise self._failure
        if self._failure is not None:
            raise LogRefused(LogFault.FAILED, str(self._failure)) from self._failure

    def fail(self, cause: BaseException) -> LogRefused:
        """From now on every call is refused, for this first cause."""
        if self._failure is None:
            self._failure = cause
        return cause if isinstance(cause, LogRefused) else LogRefused(LogFault.FAILED, str(cause))


def calls_of(records: list[Record]) -> bytes:
    """The bytes of the home's calls among the records, as docs/CALL-LOG.md lays them out."""
    return b"".join(record.call.to_bytes() for record in records if record.call.kind < OWN)


def head_bytes(head: Head) -> bytes:
    """The bytes of a head of which the first record's checksum is made: its own one is last."""
    return head.to_bytes()[: HEAD.size]


def belongs(found: Head, head: Head, other_version: bool) -> None:
    """Raises `LogRefused` where the log that was found is another one's."""
    if found.script != head.script:
        raise LogRefused(LogFault.OTHER_SCRIPT, "the log is of another script")
    if found.mode != head.mode:
        raise LogRefused(LogFault.OTHER_MODE, f"the log is of mode {found.mode}")
    if found.version != head.version and not other_version:
        raise LogRefused(LogFault.OTHER_VERSION, f"the log is of version {found.version}")


def hold(path: str) -> int:
    """Holds the lock at this path. Raises `LogRefused` with IN_USE."""
    file = os.open(path, os.O_RDWR | os.O_CREAT | os.O_CLOEXEC, 0o644)
    try:
        fcntl.flock(file, fcntl.LOCK_EX | fcntl.LOCK_NB)
    except OSError as error:
        os.close(file)
        raise LogRefused(LogFault.IN_USE, f"somebody holds {path}") from error
    return file


def read_file(path: str) -> bytes | None:
    """The bytes of the file, none where there is no file."""
    try:
        with open(path, "rb") as file:
            return file.read()
    except FileNotFoundError:
        return None


def new_file(path: str, data: bytes) -> int:
    """A file with these bytes, which are on the disk, in the place of the one at the path."""
    new = f"{path}.new"
    file = os.open(new, os.O_RDWR | os.O_CREAT | os.O_TRUNC | os.O_CLOEXEC, 0o644)
    try:
        write_at(file, data, 0)
        sync_file(file)
        os.rename(new, path)
    except BaseException:
        os.close(file)
        os.unlink(new)
        raise
    return file
