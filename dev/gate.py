#!/usr/bin/env python3
"""Runs the merge gate from nothing, and writes what it cost: seconds of processor time and memory,
by crate.

    python3 -m dev.gate [--cpus 0,1] [--log FILE] [NAME..]
    python3 -m dev.gate --from FILE
    .. --write

runs `rt ci --anew` at the top of the repository (with names: those crates and the ones below them,
which is not the gate), on these processors alone where --cpus names some, and prints two tables in
the form of docs/PERFORMANCE.md. FILE gets a line for each process that was measured, so that --from
prints the tables again. With --write they also take the place of those that stand there, and
docs/gate.tsv gets a line for each crate.

What is measured. Five times a second it looks through /proc for the processes `rattle check` and
`rattle build` that descend from its own `rt`. Their words tell the crate and what is done: a
library's or a program's proof, its tests (--test), a build of a program that is proved
(--crate-checked), or, in a folder rt-edit-*, an edit or the check that edits begin with and end
with (the seed). A process counts with all its children, as /proc tells when it is seen last, so at
most a fifth of a second of each is lost; its memory is the most that it, or one of its children,
ever held. The system's own count of the whole run stands below the table: it is exact, and has what
no line names (rt itself, linking, the runs of programs and tests, and what came after the last
look). Times are processor seconds, so they depend little on what else the machine does, but they
do: beside seven other checks the same work took up to a third more.

It wants Linux, Python 3, and `rt` on the path.
"""
from __future__ import annotations

import argparse
import contextlib
import io
import os
import resource
import subprocess
import sys
import tempfile
import time
from typing import NamedTuple

ROOT = os.path.dirname(os.path.dirname(os.path.realpath(__file__)))
EVERY = 0.2
TICK = os.sysconf("SC_CLK_TCK")
PAGE, CRATES = f"{ROOT}/docs/PERFORMANCE.md", f"{ROOT}/docs/gate.tsv"
BEGIN, END = "<!-- gate -->\n", "<!-- end of gate -->\n"
KINDS = ("proof", "tests", "seed", "edit", "build")
SHORT = 200  # crates with fewer seconds have one row together


# A process of the gate: the crate, what it does there, its processor seconds, and the most memory,
# in MB.
class Work(NamedTuple):
    crate: str
    kind: str
    seconds: float
    memory: int


Seen = dict[tuple[int, bytes], Work]  # by a process and when it began


# -- Processes


def read(path: str) -> bytes:
    try:
        with open(path, "rb") as it:
            return it.read()
    except OSError:
        return b""


def parents() -> dict[int, int]:
    """Returns the parent of each process, by its number."""
    found = {}
    for name in os.listdir("/proc"):
        if name.isdigit():
            # (a process's name may have blanks and brackets in it)
            rest = read(f"/proc/{name}/stat").rpartition(b")")[2].split()
            if rest:
                found[int(name)] = int(rest[1])
    return found


def descends(process: int, from_process: int, above: dict[int, int]) -> list[int] | None:
    """Returns the processes on the way up from one to another, without that one, or None if it
    leads elsewhere.
    """
    way = []
    while process != from_process:
        if process not in above or process <= 1:
            return None
        way.append(process)
        process = above[process]
    return way


def work_of(process: int) -> tuple[str, str] | None:
    """Returns the crate and what a process does there, or None where it is none of rattle's checks
    and builds.
    """
    words = read(f"/proc/{process}/cmdline").decode(errors="replace").split("\0")
    if (
        len(words) < 4
        or os.path.basename(words[0]) != "rattle"
        or words[1] not in ("check", "build")
    ):
        return None
    if "--crate-name" not in words:
        return None
    crate = words[words.index("--crate-name") + 1]
    try:
        folder = os.path.basename(os.readlink(f"/proc/{process}/cwd"))
    except OSError:
        return None
    if folder.startswith("rt-edit-"):
        kept = words[words.index("--incremental") + 1] if "--incremental" in words else ""
        return crate, "seed" if os.path.basename(kept) == "seed" else "edit"
    return (
        crate,
        "tests" if "--test" in words else "build" if "--crate-checked" in words else "proof",
    )


def seconds_of(process: int) -> float:
    """Returns the processor seconds of a process and of its children that have ended."""
    rest = read(f"/proc/{process}/stat").rpartition(b")")[2].split()
    return sum(map(int, rest[11:15])) / TICK if rest else 0.0


def memory_of(process: int) -> int:
    """Returns the most memory that a process has held, in MB."""
    for line in read(f"/proc/{process}/status").split(b"\n"):
        if line.startswith(b"VmHWM:"):
            return int(line.split()[1]) // 1024
    return 0


def look(rt: int, seen: Seen) -> None:
    """Notes what each check and build below rt has taken up to now. A copy that rattle makes of
    itself is a part of it.
    """
    above = parents()
    for process in above:
        work = work_of(process)
        way = work and descends(process, rt, above)
        if not work or not way:
            continue
        tops = [it for it in way if work_of(it)]
        begun = read(f"/proc/{tops[-1]}/stat").rpartition(b")")[2].split()[19:20]
        if not begun:
            continue
        key = tops[-1], begun[0]
        was = seen.get(key, Work(work[0], work[1], 0.0, 0))
        seconds = max(was.seconds, seconds_of(key[0]))
        seen[key] = was._replace(seconds=seconds, memory=max(was.memory, memory_of(process)))


# -- A run


def run(names: list[str], cpus: set[int] | None, log: str) -> int:
    """Runs the gate, writes a line for each process into the log, and returns the gate's status."""
    if cpus:
        os.sched_setaffinity(0, cpus)
    seen: Seen = {}
    begin, load = time.monotonic(), os.getloadavg()[0]
    with subprocess.Popen(["rt", "ci", "--anew", *names], cwd=ROOT) as gate:
        while gate.poll() is None:
            look(gate.pid, seen)
            time.sleep(EVERY)
    used = resource.getrusage(resource.RUSAGE_CHILDREN)
    told = {
        "commit": told_by("git", "rev-parse", "--short", "HEAD"),
        "kit": told_by("rt", "version").split(" ")[0],
        "processors": str(len(os.sched_getaffinity(0))),
        "load before": f"{load:.1f}",
        "status": str(gate.returncode),
        "clock seconds": f"{time.monotonic() - begin:.0f}",
        "processor seconds": f"{used.ru_utime + used.ru_stime:.0f}",
    }
    with open(log, "w", encoding="utf-8") as it:
        for name, value in told.items():
            it.write(f"# {name}\t{value}\n")
        for work in seen.values():
            it.write(f"{work.crate}\t{work.kind}\t{work.seconds:.2f}\t{work.memory}\n")
    return gate.returncode


def told_by(*words: str) -> str:
    ran = subprocess.run(
        words, cwd=ROOT, stdout=subprocess.PIPE, stderr=subprocess.DEVNULL, errors="replace"
    )
    return ran.stdout.strip()


# -- The tables


def read_log(log: str) -> tuple[dict[str, str], list[Work]]:
    """Returns what a log tells of the run, and its lines."""
    told, works = {}, []
    with open(log, encoding="utf-8") as it:
        for line in it.read().splitlines():
            row = line.split("\t")
            if line.startswith("# "):
                told[row[0][2:]] = row[1]
            else:
                works.append(Work(row[0], row[1], float(row[2]), int(row[3])))
    return told, works


def rows_of(works: list[Work]) -> list[tuple[str, dict[str, float]]]:
    """Returns a row for each crate: the seconds by kind, the number of edits, and the most memory;
    the dearest first.
    """
    rows: dict[str, dict[str, float]] = {}
    for it in works:
        row = rows.setdefault(it.crate, {**dict.fromkeys(KINDS, 0.0), "edits": 0, "memory": 0})
        row[it.kind] += it.seconds
        row["edits"] += it.kind == "edit"
        row["memory"] = max(row["memory"], it.memory)
    return sorted(rows.items(), key=lambda it: -whole(it[1]))


def whole(row: dict[str, float]) -> float:
    return sum(row[it] for it in KINDS)


def together(rows: list[dict[str, float]]) -> dict[str, float]:
    """The row of these crates together: sums, and the most memory."""
    sums = {it: sum(row[it] for row in rows) for it in (*KINDS, "edits")}
    return {**sums, "memory": max(row["memory"] for row in rows)}


def print_row(name: str, row: dict[str, float]) -> None:
    cells = [f"{row[it]:.0f}" if row[it] else "" for it in ("proof", "tests", "seed")]
    cells += [
        f"{row['edit']:.0f} ({row['edits']:.0f})" if row["edits"] else "",
        f"{row['build']:.0f}" if row["build"] else "",
        f"{whole(row):.0f}",
        f"{row['memory']:.0f}",
    ]
    print(f"| {name} | {' | '.join(cells)} |")


def print_tables(log: str) -> None:
    told, works = read_log(log)
    rows = rows_of(works)
    print(
        "| Crate | Proof | Tests | Edits: their seed | the edits | Builds of a program | All, s | "
        "Memory, MB |"
    )
    print("|---|---|---|---|---|---|---|---|")
    for name, row in rows:
        if whole(row) >= SHORT:
            print_row(f"`{name}`", row)
    others = [row for _, row in rows if whole(row) < SHORT]
    if others:
        print_row(f"{len(others)} others, below {SHORT} s each", together(others))
    sums = [sum(row[it] for _, row in rows) / 60 for it in KINDS]
    most = max((it.memory for it in works), default=0)
    print(
        f"| all, minutes | {' | '.join(f'{it:.1f}' for it in sums)} | {sum(sums):.1f} | {most} |\n"
    )
    longest = max(works, key=lambda it: it.seconds, default=Work("", "", 0.0, 0))
    told["longest check"] = f"{longest.crate}, {longest.kind}: {longest.seconds:.0f} s"
    print("| Of the run | |\n|---|---|")
    for name, value in told.items():
        print(f"| {name} | {value} |")


def write_crates(log: str) -> None:
    """Writes a line for each crate beside the page, whose table sums the cheap ones."""
    with open(CRATES, "w", encoding="utf-8") as it:
        print("crate", *KINDS, "edits", "all", "memory", sep="\t", file=it)
        for name, row in rows_of(read_log(log)[1]):
            kinds = [f"{row[kind]:.0f}" for kind in KINDS]
            cells = [f"{number:.0f}" for number in (row["edits"], whole(row), row["memory"])]
            print(name, *kinds, *cells, sep="\t", file=it)


def write_tables(tables: str) -> None:
    """Puts the tables into the page, in the place of those that stand there."""
    with open(PAGE, encoding="utf-8") as it:
        before, begin, rest = it.read().partition(BEGIN)
    _, end, behind = rest.partition(END)
    if not begin or not end:
        sys.exit(f"gate: {PAGE} has no place for the tables")
    with open(PAGE, "w", encoding="utf-8") as it:
        it.write(f"{before}{begin}{tables}{end}{behind}")


def main() -> int:
    reader = argparse.ArgumentParser(
        description=__doc__, formatter_class=argparse.RawDescriptionHelpFormatter
    )
    reader.add_argument("names", nargs="*", metavar="NAME")
    reader.add_argument(
        "--cpus", type=lambda text: {int(it) for it in text.split(",")}, metavar="0,1"
    )
    reader.add_argument("--log", default=f"{tempfile.gettempdir()}/gate.tsv", metavar="FILE")
    reader.add_argument("--from", dest="old", metavar="FILE")
    reader.add_argument("--write", action="store_true")
    given = reader.parse_args()
    status: int = 0 if given.old else run(given.names, given.cpus, given.log)
    with contextlib.redirect_stdout(io.StringIO()) as tables:
        print_tables(given.old or given.log)
    print(tables.getvalue(), end="")
    if given.write:
        write_tables(tables.getvalue())
        write_crates(given.old or given.log)
    return status


if __name__ == "__main__":
    sys.exit(main())
