#!/usr/bin/env python3
"""Times a dense day that is run with a thread for each run, beside its replay.

    time_run.py [PROGRAM]

PROGRAM is crates/hub_main/out/hub_main by default, which `rt run` builds. The day is that of
time_replay.py. It is run on all processors and, where `taskset` is installed, on two of them: the
time, the processor time, and how often the system put one thread in the place of another, because
the thread slept or because its time was over.
"""
from __future__ import annotations

import os
import resource
import shutil
import subprocess
import tempfile
import time

from bench.time_replay import MODES, dense_day, program_asked, words


def timed(called: list[str], script: bytes) -> tuple[int, float, resource.struct_rusage]:
    """The status of a call, its time in s, and what it used. Its line on standard error is left
    out.
    """
    with tempfile.TemporaryFile() as given:
        given.write(script)
        given.seek(0)
        begun = time.monotonic()
        child = subprocess.Popen(
            called, stdin=given, stdout=subprocess.DEVNULL, stderr=subprocess.DEVNULL
        )
        _, status, used = os.wait4(child.pid, 0)
        child.returncode = os.waitstatus_to_exitcode(status)
    return child.returncode, time.monotonic() - begun, used


def show(name: str, called: list[str], script: bytes) -> None:
    status, spent, used = timed(called, script)
    print(
        f"{name}: status {status}, {spent:.2f} s, {used.ru_utime:.2f} s of processor time and "
        f"{used.ru_stime:.2f} s of"
        f" the system's, {used.ru_nvcsw} switches of threads that slept, {used.ru_nivcsw} others,"
        f" {used.ru_maxrss / 1024:.0f} MB at most",
        flush=True,
    )


def main() -> None:
    program = program_asked(__doc__)
    print("load", *(f"{load:.1f}" for load in os.getloadavg()), flush=True)
    dense, threads = dense_day(), dense_day(288, 64, 1)
    for mode in MODES:
        show(f"dense, {mode}, replay", [program, *words(mode)], dense)
        show(f"dense, {mode}, run", [program, *words(mode, "run")], dense)
        if shutil.which("taskset"):
            two = ["taskset", "-c", "0,1", program, *words(mode, "run")]
            show(f"dense, {mode}, run on two processors", two, dense)
    show("one command a run, ev, run", [program, "run"], threads)


if __name__ == "__main__":
    main()
