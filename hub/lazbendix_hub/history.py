"""What has ended, in SQLite: derived from what was told, and so made anew where it is lost."""
from __future__ import annotations

import datetime
import json
import os
import sqlite3
import threading
from dataclasses import asdict
from typing import Any

from lazbendix_hub.live import Ended

MOST = 100_000  # runs that are kept
COLUMNS = ("number", "trigger_", "routine", "label", "outcome", "cause", "cause_kind", "source",
           "window_", "run", "at", "waited", "first_call", "took", "steps")
TABLE = """create table if not exists runs (
    number integer primary key, trigger_ integer, routine text, label text, outcome text,
    cause text, cause_kind text, source text, window_ text, run integer, at real, waited real,
    first_call real, took real, steps text);
create index if not exists runs_at on runs (at);"""


class History:
    """The runs that have ended. It may be used by any thread."""

    def __init__(self, folder: str) -> None:
        self.path = os.path.join(folder, "history.sqlite")
        self.lock = threading.Lock()
        self.counts = {"committed": 0, "aborted": 0, "expired": 0}  # of this life
        try:
            self.base = self._open()
        except sqlite3.DatabaseError:  # damaged: it is only derived
            os.replace(self.path, self.path + ".damaged")
            self.base = self._open()

    def _open(self) -> sqlite3.Connection:
        base = sqlite3.connect(self.path, check_same_thread=False, isolation_level=None)
        base.execute("pragma journal_mode = wal")
        base.execute("pragma synchronous = off")
        base.executescript(TABLE)
        return base

    def add(self, ended: Ended) -> None:
        """Keeps a run."""
        self.counts[ended.outcome] += 1
        row = asdict(ended)
        row["steps"] = json.dumps(row["steps"])
        values = [None, row.pop("trigger"), *[row[name] for name in COLUMNS[2:8]],
                  row["window"], row["run"], *[row[name] for name in COLUMNS[10:]]]
        marks = ", ".join("?" * len(values))
        with self.lock:
            at = self.base.execute(f"insert into runs values ({marks})", values).lastrowid or 0
            if at % 1000 == 0:
                self.base.execute("delete from runs where number <= ?", (at - MOST,))

    def get(self, number: int | None) -> dict[str, Any] | None:
        """The run that was the so many-th to end, or the last one; none where there is none."""
        where = "" if number is None else "where number = ?"
        words = () if number is None else (number,)
        found = self._rows(f"{where} order by number desc limit 1", words)
        return found[0] if found else None

    def find(self, day: str = "", routine: str = "", device: str = "", cause: str = "",
             count: int = 50) -> list[dict[str, Any]]:
        """The last runs: of a day as `2026-05-01`, a routine, a word of the time line such as a
        device, a kind of cause or outcome."""
        where, words = ["1"], list[Any]()
        if day:
            try:
                begin = datetime.datetime.fromisoformat(day)
            except ValueError:
                return []
            where.append("at >= ? and at < ?")
            words += [begin.timestamp(), (begin + datetime.timedelta(days=1)).timestamp()]
        if routine:
            where.append("routine = ?")
            words.append(routine)
        if device:
            where.append("(instr(steps, ?) or instr(cause, ?))")
            words += [json.dumps(device)[1:-1], device]
        if cause:
            where.append("(cause_kind = ? or outcome = ?)")
            words += [cause, cause]
        return self._rows(f"where {' and '.join(where)} order by number desc limit ?",
                          (*words, max(1, min(count, 500))))

    def _rows(self, rest: str, words: tuple[Any, ...]) -> list[dict[str, Any]]:
        with self.lock:
            rows = self.base.execute(f"select {', '.join(COLUMNS)} from runs {rest}", words)
            found = [dict(zip(COLUMNS, row)) for row in rows]
        for row in found:
            row["trigger"], row["window"] = row.pop("trigger_"), row.pop("window_")
            row["steps"] = json.loads(row["steps"])
        return found

    def close(self) -> None:
        """Closes the file."""
        with self.lock:
            self.base.close()


def why_text(row: dict[str, Any]) -> str:
    """What became of a run, and why, in sentences."""
    at = datetime.datetime.fromtimestamp(row["at"]).strftime("%Y-%m-%d %H:%M:%S")
    lines = [f"{row['number']}: {row['label']}, {at}, begun by {row['source']}"]
    if row["outcome"] == "committed":
        lines.append(f"It was done, in {row['took']:.0f} ms from its trigger.")
    elif row["outcome"] == "expired":
        lines.append("It was not begun, since its trigger had waited for too long.")
    else:
        lines.append(f"It was taken back: {row['cause']}. What it had set is as it would be "
                     "without it.")
    if row["waited"] >= 1:
        lines.append(f"Its trigger waited {row['waited']:.0f} ms before it could begin.")
    width = max((len(str(moment)) for moment, _ in row["steps"]), default=0)
    lines += [f"  {moment:>{width}} ms  {text}" for moment, text in row["steps"]]
    if row["window"] and row["outcome"] != "expired":
        lines.append(f"In the records: run {row['run']} of the window {row['window']}.")
    return "\n".join(lines)
