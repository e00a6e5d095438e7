"""The proved program, and the calls of it; where none is installed, the reference makes them.

Words, statuses and bytes are those of docs/FORMATS.md. Nothing here changes what is written.
"""
import contextlib
import functools
import os
import select
import shutil
import subprocess
import sys
import threading
from collections.abc import Mapping
from typing import IO, NamedTuple

from lazbendix.reference.calls import BytesSink, BytesSource, Call
from lazbendix.reference.disks import FileDisk

HERE = os.path.dirname(os.path.abspath(__file__))
VARIABLE = "LAZBENDIX_PROGRAM"
NAME = "hub_main"
PLACES = (
    os.path.join(HERE, NAME),
    os.path.join(HERE, "bin", NAME),
    os.path.join(HERE, "..", "..", "bin", NAME),
    os.path.join(HERE, "..", "..", "crates", NAME, "out", NAME),
)
NO_PROGRAM = 127  # the status where the variable names no program, as a shell has it
PROGRESS = "LAZBENDIX_PROGRESS"  # where it is set `watch` shows how far it is, line by line
WRITE = 4  # the status of a write that fails


class NoProgram(Exception):
    """The variable names a file that is no program."""


class Ended(NamedTuple):
    """How a call ended: its status, its line on standard error, and what it wrote where that was
    kept."""

    status: int
    line: str
    output: bytes = b""


def found_program(environment: Mapping[str, str] = os.environ) -> str | None:
    """The path of the proved program, or none where none is installed. Raises `NoProgram`."""
    named = environment.get(VARIABLE)
    if named is not None:
        if os.path.isfile(named) and os.access(named, os.X_OK):
            return named
        raise NoProgram(f"{VARIABLE} names no program: {named!r}")
    for place in PLACES:
        if os.path.isfile(place) and os.access(place, os.X_OK):
            return os.path.normpath(place)
    return shutil.which(NAME, path=environment.get("PATH"))


class StandardSink:
    """Standard output, as the reference writes to it."""

    def write(self, data: bytes) -> int:
        return os.write(1, data)


def call(words: list[str], data: bytes = b"") -> Ended:
    """Makes a call that writes to standard output as it goes."""
    program = found_program()
    if program is None:
        tell_reference()
        made = Call(words, BytesSource(data), StandardSink(), FileDisk())
        return Ended(made.status, made.line or "")
    sys.stdout.flush()
    if words[:1] == ["watch"]:
        return watched([program, *words], data)
    ended = subprocess.run([program, *words], input=data, stderr=subprocess.PIPE)
    return Ended(ended.returncode, ended.stderr.decode("utf-8", "replace").strip())


def watched(called: list[str], data: bytes) -> Ended:
    """Makes a call of `watch`. Its progress goes to standard error as it comes, in the form that
    the program has for a terminal; its line of a fault is kept, as that of any call."""
    variables = dict(os.environ)
    is_terminal = os.isatty(2)
    if is_terminal:
        variables[PROGRESS] = "1"
    begin, end = (b"\r", b"\x1b[K") if is_terminal and not os.isatty(1) else (b"", b"\n")
    others, shown = list[bytes](), b""
    with subprocess.Popen(
        called, stdin=subprocess.PIPE, stderr=subprocess.PIPE, env=variables
    ) as made:
        assert made.stdin is not None and made.stderr is not None
        feeder = threading.Thread(target=feed, args=(made.stdin, data))
        feeder.start()
        for line in made.stderr:
            if line.startswith(b"window "):
                shown = begin + line.rstrip(b"\n") + end
                os.write(2, shown)
            else:
                others.append(line)
        feeder.join()
    if shown and begin:
        os.write(2, b"\n")
    return Ended(made.returncode, b"".join(others).decode("utf-8", "replace").strip())


def feed(given: IO[bytes], data: bytes) -> None:
    """Writes all, for as long as there is who reads."""
    with contextlib.suppress(BrokenPipeError), given:
        given.write(data)


def kept_call(words: list[str], data: bytes = b"") -> Ended:
    """Makes a call whose output is kept."""
    program = found_program()
    if program is None:
        tell_reference()
        sink = BytesSink()
        made = Call(words, BytesSource(data), sink, FileDisk())
        return Ended(made.status, made.line or "", sink.held)
    ended = subprocess.run([program, *words], input=data, capture_output=True)
    return Ended(ended.returncode, ended.stderr.decode("utf-8", "replace").strip(), ended.stdout)


@functools.cache
def tell_reference() -> None:
    """Says, once, that no proved program plays."""
    print(
        "lazbendix: no proved program is installed, so the reference plays (lazbendix doctor)",
        file=sys.stderr,
    )


def is_reader_gone() -> bool:
    """Whether standard output is a pipe whose reader has gone."""
    poll = select.poll()
    poll.register(1, select.POLLOUT)
    return any(events & select.POLLERR for _, events in poll.poll(0))
