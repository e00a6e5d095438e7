#!/usr/bin/env python3
"""Has one request for memory after the other refused to the built program, and asks that it ends as
it should.

    refused_memory.py [--program P] [--day NAME ..]
    refused_memory.py --try N .. [--day NAME ..]
    refused_memory.py --tests

The first form wants a C compiler, `cc`, and crates/hub_main/out/hub_main, which `rt run` and `rt
ci` build. A few lines of C, loaded in front of the C library, count the program's requests for
memory and for threads, and refuse some. Of each day, `one-light`, `undo-drives-live-writer` and
`a-morning` by default, cases of crates/day_table, it makes the calls `replay`, `run`, `watch`,
`keep` with no file, and the `check` of the replay's record, and `trial 1` and the `rooms` of
`rooms-in-order` besides. First the Nth request for memory alone is refused, one N a call, up to the
first N to which the call does not come; then the Nth and all behind it; then the Nth thread alone,
and all from the Nth on. Asked is

- either status 0, all of the text and nothing on standard error,
- or status 5, a first part of the text, and `memory` alone on standard error; this only where
  memory was refused.

The text of a replay, a kept day, a check and a trial is the reference's, and so is that of `rooms`,
since each room has one run there. With `run` and `watch` the threads choose, so the record is
judged as the windows that it holds (dev/judge_runs.py), and the line behind a watched one by its
total. The file of a kept day has to keep each window of which a line was written.

The second form needs no proof: it has the Nth allocation of each replay refused by `rt try
--fail-alloc N`, which also stops at a bad access, and asks the same. Each such call builds the
program anew.

The third form wants `cc` and what `rt test` builds in crates/rule_tests. Of each test of a chain
the Nth request is refused, one N a run. A `Chain::reserve` that is refused is called once more
there, after a look at the list, so the test passes; where another request is refused it ends with
want of memory. Asked is that it ends in one of these ways, and by no signal.

Prints a line for each call, and ends with 1 at the first end that is another one.
"""
from __future__ import annotations

import argparse
import collections
import itertools
import json
import os
import re
import struct
import subprocess
import sys
import tempfile
from collections.abc import Iterator, Sequence
from typing import Any

from dev.judge_runs import Wrong, judge
from reference.compare import PROGRAM, Came, wanted
from reference.disks import NAME
from reference.journal import Damaged, kept_states
from reference.script import read_script

HERE = os.path.dirname(os.path.abspath(__file__))
TOP = os.path.join(HERE, "..")

DAYS = ["one-light", "undo-drives-live-writer", "a-morning"]
TABLE = os.path.join(TOP, "crates", "day_table", "stdin")
MAIN = os.path.join(TOP, "crates", "hub_main")
RULE_TESTS = os.path.join(TOP, "crates", "rule_tests", "out", "rule_tests_tests")
MINUTE = 60
GREATEST = 2**62
COUNTS = struct.Struct("@ll")
# what is refused, and whether all behind the Nth is too
WAYS = {
    "memory": ("m", False),
    "memory from then on": ("m", True),
    "a thread": ("t", False),
    "threads from then on": ("t", True),
}
SHIM = r"""
#define _GNU_SOURCE
#include <dlfcn.h>
#include <errno.h>
#include <fcntl.h>
#include <pthread.h>
#include <stdio.h>
#include <stdlib.h>
#include <sys/mman.h>

void *__libc_malloc(size_t);
void *__libc_calloc(size_t, size_t);
void *__libc_realloc(void *, size_t);
void *__libc_memalign(size_t, size_t);

typedef int Create(pthread_t *, const pthread_attr_t *, void *(*)(void *), void *);
static Create *create;
static long unseen[2], *asked = unseen, first, last;
static char kind;

// the counts lie in a file, so that they stay whatever ends the program
__attribute__((constructor)) static void begin(void) {
    create = (Create *)dlsym(RTLD_NEXT, "pthread_create");
    sscanf(getenv("REFUSED"), "%c %ld %ld", &kind, &first, &last);
    int file = open(getenv("REFUSED_TOLD"), O_RDWR);
    void *told = mmap(NULL, sizeof unseen, PROT_READ | PROT_WRITE, MAP_SHARED, file, 0);
    if (told == MAP_FAILED) abort();
    asked = told;
}

static int is_refused(char of) {
    long number = __atomic_add_fetch(&asked[of == 't'], 1, __ATOMIC_SEQ_CST);
    return kind == of && first <= number && number <= last;
}

static void *none(void) { errno = ENOMEM; return NULL; }

void *malloc(size_t size) { return is_refused('m') ? none() : __libc_malloc(size); }
void *calloc(size_t count, size_t size) {
    return is_refused('m') ? none() : __libc_calloc(count, size);
}
void *realloc(void *block, size_t size) {
    return is_refused('m') ? none() : __libc_realloc(block, size);
}
void *memalign(size_t align, size_t size) {
    return is_refused('m') ? none() : __libc_memalign(align, size);
}
void *aligned_alloc(size_t align, size_t size) { return memalign(align, size); }
int posix_memalign(void **block, size_t align, size_t size) {
    return (*block = memalign(align, size)) ? 0 : ENOMEM;
}
int pthread_create(
    pthread_t *thread, const pthread_attr_t *attributes, void *(*work)(void *), void *given) {
    return is_refused('t') ? EAGAIN : create(thread, attributes, work, given);
}
"""


def worked_day(name: str) -> bytes:
    """The script of a worked day, which stands in the table of calls."""
    with open(TABLE) as table:
        lines = table.read().split("\n")
    begin = lines.index(f"case {name}")
    text = [line for line in lines[begin : lines.index("run", begin)] if line.startswith("text ")]
    return "".join(line.removeprefix("text ") for line in text).encode()


class Call:
    """Words and an input, and the text that is due."""

    def __init__(self, name: str, words: list[str], data: bytes) -> None:
        self.name, self.words, self.data = name, words, data
        status, self.text, _ = wanted(words, data)
        assert status == 0, name

    def is_whole(self, out: bytes) -> bool:
        return out == self.text

    def is_part(self, out: bytes) -> bool:
        return self.text.startswith(out)

    def judge_file(self, file: bytes, out: bytes) -> None:
        """That the file of the journal is as it should be behind this output."""

    def judge(self, came: Came, may_be_part: bool) -> int | str:
        """That the call has ended as it should. Answers its status."""
        status, out, err = came
        if (status, err) == (0, b"") and self.is_whole(out):
            return status
        if may_be_part and (status, err) == (5, b"memory\n") and self.is_part(out):
            return status
        raise Wrong(
            f"status {status}, {out.decode(errors='replace')!r}, {err.decode(errors='replace')!r}"
        )


class Keep(Call):
    """A day that is kept, in a file that is not there before."""

    def judge_file(self, file: bytes, out: bytes) -> None:
        script = read_script(self.data)
        try:
            kept = len(
                kept_states([device.kind for device in script.devices], len(script.windows), file)
            )
        except Damaged:
            raise Wrong("the file is damaged") from None
        if kept < len(re.findall(rb"^window ", out, re.MULTILINE)):
            raise Wrong("a window was written whose state is not kept")


class Run(Call):
    """A day with threads. Its text is any record of its windows that stands."""

    def is_whole(self, out: bytes) -> bool:
        return self.judged(out.decode(), json.loads(self.data))

    def is_part(self, out: bytes) -> bool:
        text, script = out.decode(), json.loads(self.data)
        if "\ntotal " in text:
            return self.judged(text, script)
        script["windows"] = script["windows"][: len(re.findall("^window ", text, re.MULTILINE))]
        ends = re.findall(r"^run \d+ \S+ (committed|aborted)", text, re.MULTILINE)
        total = f"total windows {len(script['windows'])} runs {len(ends)}"
        total += f" committed {ends.count('committed')} aborted {ends.count('aborted')}\n"
        return text == "" or self.judged(text + total, script)

    @staticmethod
    def judged(text: str, script: dict[str, Any]) -> bool:
        try:
            judge(script, text, "ev", "fcfs")
            return True
        except (Wrong, ValueError, LookupError):
            return False


class Test(Call):
    """A test of a chain. It passes, or ends with want of memory, which the harness tells."""

    def __init__(self, name: str) -> None:
        self.name, self.words, self.data = name, [name], b""

    def judge(self, came: Came, may_be_part: bool) -> int | str:
        status, out, err = came
        if (
            (status, err) == (0, b"")
            or may_be_part
            and status == 101
            and err.startswith(b"error: AllocFailed")
        ):
            return status
        raise Wrong(
            f"status {status}, {out.decode(errors='replace')!r}, {err.decode(errors='replace')!r}"
        )


class Watch(Run):
    """A watched day with threads: such a record, and behind it the line with the numbers of its
    total.
    """

    def is_whole(self, out: bytes) -> bool:
        record, board, line = out.decode().rpartition("board")
        return bool(board) and record.endswith(f"total{line}") and super().is_whole(record.encode())

    def is_part(self, out: bytes) -> bool:
        return self.is_whole(out) if b"\nboard" in out else super().is_part(out)


def calls_of(name: str) -> Iterator[Call]:
    """The calls of a worked day."""
    script = worked_day(name)
    replay = Call(f"{name}, replay", ["replay"], script)
    yield replay
    yield Run(f"{name}, run", ["run", "--trace"], script)
    yield Watch(f"{name}, watch", ["watch", "--trace"], script)
    yield Keep(f"{name}, keep", ["keep"], script)
    yield Call(f"{name}, check", ["check"], script + b"\n%%\n" + replay.text)


class Refuser:
    """The built program behind the lines of C, which are compiled into a folder."""

    def __init__(self, program: str, room: str) -> None:
        self.program, self.told, self.room = program, os.path.join(room, "told"), room
        self.shim, source = os.path.join(room, "shim.so"), os.path.join(room, "shim.c")
        with open(source, "w") as lines:
            lines.write(SHIM)
        subprocess.run(["cc", "-O2", "-shared", "-fPIC", "-o", self.shim, source], check=True)

    def play(
        self, call: Call, kind: str, first: int, last: int
    ) -> tuple[tuple[int, bytes, bytes], int]:
        """What came of the call, and how many requests of this kind it made."""
        with open(self.told, "wb") as told:
            told.write(COUNTS.pack(0, 0))
        asked = {
            "LD_PRELOAD": self.shim,
            "REFUSED": f"{kind} {first} {last}",
            "REFUSED_TOLD": self.told,
        }
        file = os.path.join(self.room, NAME)
        if os.path.exists(file):
            os.remove(file)
        try:
            done = subprocess.run(
                [self.program, *call.words],
                input=call.data,
                capture_output=True,
                env=asked,
                timeout=MINUTE,
                cwd=self.room,
            )
        except subprocess.TimeoutExpired:
            raise Wrong(f"no end after {MINUTE} s") from None
        if done.returncode < 0:
            raise Wrong(f"ended by the signal {-done.returncode}")
        if os.path.exists(file):
            with open(file, "rb") as stored:
                call.judge_file(stored.read(), done.stdout)
        with open(self.told, "rb") as told:
            blocks, threads = COUNTS.unpack(told.read())
        return (done.returncode, done.stdout, done.stderr), blocks if kind == "m" else threads

    def sweep(self, call: Call, kind: str, goes_on: bool) -> collections.Counter[int | str]:
        """Refuses the Nth request, for each N to which the call comes: how many calls have ended
        with each status.
        """
        ends = collections.Counter[int | str]()
        number = 0
        while True:
            number += 1
            try:
                came, requests = self.play(call, kind, number, GREATEST if goes_on else number)
                status = call.judge(came, kind == "m" and requests >= number)
            except Wrong as wrong:
                raise Wrong(f"request {number} refused: {wrong}") from None
            if requests < number:
                return ends
            ends[status] += 1


def sweep_program(
    program: str, calls: Sequence[Call], ways: dict[str, tuple[str, bool]] = WAYS
) -> None:
    with tempfile.TemporaryDirectory() as room:
        refuser = Refuser(os.path.abspath(program), room)
        for call in calls:
            for name, (kind, goes_on) in ways.items():
                try:
                    ends = refuser.sweep(call, kind, goes_on)
                except Wrong as wrong:
                    sys.exit(f"{call.name}, {name}: {wrong}")
                told = ", ".join(
                    f"{count} with {status}" for status, count in sorted(ends.items(), key=str)
                )
                if ends:
                    print(
                        f"{call.name}, {name}: {sum(ends.values())} refused one a call: {told}",
                        flush=True,
                    )


def sweep_tests() -> None:
    listed = subprocess.run([RULE_TESTS, "--list"], capture_output=True, check=True).stdout.decode()
    tests = [Test(name) for name in re.findall("^(.*chains::.*): test$", listed, re.MULTILINE)]
    sweep_program(RULE_TESTS, tests, {"memory": WAYS["memory"]})


def tried(call: Call, number: int) -> Came:
    """What comes of the call where `rt try` refuses this allocation. Its own lines stand around
    those of the program.
    """
    done = subprocess.run(
        ["rt", "try", "--fail-alloc", str(number), "--", *call.words],
        cwd=MAIN,
        input=call.data,
        capture_output=True,
    )
    ended = re.search(rb"^run=ended status=(\d+) ", done.stderr, re.MULTILINE)
    if ended is None:
        raise Wrong(done.stderr.decode(errors="replace"))
    return int(ended[1]), done.stdout, b"memory\n" if b"memory\n" in done.stderr else b""


def main() -> None:
    options = argparse.ArgumentParser(description=__doc__.splitlines()[0])
    options.add_argument("--program", default=PROGRAM)
    options.add_argument("--day", nargs="+", default=DAYS)
    options.add_argument("--try", nargs="+", type=int, dest="tries")
    options.add_argument("--tests", action="store_true")
    asked = options.parse_args()
    if asked.tests:
        sweep_tests()
        return
    if not asked.tries:
        days = [call for name in asked.day for call in calls_of(name)]
        rooms = Call("rooms-in-order, rooms", ["rooms"], worked_day("rooms-in-order"))
        sweep_program(asked.program, [*days, Call("trial 1", ["trial", "1"], b""), rooms])
        return
    for name, number in itertools.product(asked.day, asked.tries):
        replay = next(calls_of(name))
        try:
            print(
                f"{replay.name}, allocation {number}: status "
                f"{replay.judge(tried(replay, number), True)}",
                flush=True,
            )
        except Wrong as wrong:
            sys.exit(f"{replay.name}, allocation {number}: {wrong}")


if __name__ == "__main__":
    main()
