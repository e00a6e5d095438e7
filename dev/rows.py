#!/usr/bin/env python3
"""Names the rows and the steps back of a worked window that the definitions refuse.

    python3 -m dev.rows WINDOW

WINDOW is a file of crates/worked_windows/proofs, as UndoDies. Its check says which field of
`is_worked` fails, and not at which row. Here each row has a lemma of its own, in a file beside the
window's that is checked and taken away again. A row says what is changed since the one before, so
the first one named is wrong.
"""
from __future__ import annotations

import pathlib
import re
import subprocess
import sys
from collections.abc import Iterator
from typing import Any

CRATE = pathlib.Path(__file__).resolve().parent.parent / "crates" / "worked_windows"
# what a window of the timeline unfolds; the others need the last one alone
UNFOLDED = ["chosen", "closure", "either_of", "gap_set", "others", "split_of"]
HEAD = """-- The rows of {window}, one by one.
use Rattle.std.specs.Prelude.{{drop, map, take}}
use Rattle.worked_windows.proofs.Tables.{{clauses_hold, gives_along}}
use Rattle.worked_windows.proofs.Words.{{{unfolded}, points_from, refl, true, words_along, ◌≡◌}}
use Rattle.worked_windows.proofs.{window}.{{history, table, window}}
"""
POINT = (
    "words_along window history (take 1 (drop {k} table.rows)) ≡ take 1 (drop {k} (points_from "
    "table.first table.rows))"
)
CLAUSES = "clauses_hold window history (take 1 (drop {k} table.rows)) ≡ true"
GIVE = (
    "gives_along window history (take 1 (drop {k} table.gives)) ≡ map (λ g. g.makes) (take 1 (drop "
    "{k} table.gives))"
)


def lemmas(text: Any) -> Iterator[Any]:
    """each row's and each step back's own lemma, as a name and a statement"""
    rows, gives = (
        len(re.findall(rf"(?:^ +|∷ |= )(?:{word}) \d", text, re.M))
        for word in ("row|still", "give")
    )
    for k in range(rows):
        yield f"row_{k}", POINT.format(k=k)
        if ": IsWorked " in text:
            yield f"clauses_of_row_{k}", CLAUSES.format(k=k)
    for k in range(gives):
        yield f"give_{k}", GIVE.format(k=k)


def main() -> None:
    if len(sys.argv) != 2 or sys.argv[1] in ("-h", "--help"):
        print(__doc__)
        return
    window = sys.argv[1]
    text = (CRATE / "proofs" / f"{window}.antt").read_text()
    added, modules = CRATE / "proofs" / f"{window}Rows.antt", CRATE / "proofs" / "Lib.antt"
    kept = modules.read_text()
    proved = [
        f"\n{name} : {says}\nunfolding {' '.join(UNFOLDED)}\n{name} = refl\n"
        for name, says in lemmas(text)
    ]
    try:
        added.write_text(HEAD.format(window=window, unfolded=", ".join(UNFOLDED)) + "".join(proved))
        modules.write_text(kept + f"mod {added.stem}\n")
        told = subprocess.run(["rt", "check"], cwd=CRATE, capture_output=True, text=True)
    finally:
        modules.write_text(kept)
        added.unlink(missing_ok=True)
    log = told.stdout + told.stderr
    refused = re.findall(rf"{added.name}:\d+:\d+: error: `(\w+)`", log)
    print(f"{window}: {len(proved)} lemmas, refused: {' '.join(dict.fromkeys(refused)) or 'none'}")
    if told.returncode and not refused:
        print("\n".join(line for line in log.splitlines() if "error" in line))


if __name__ == "__main__":
    main()
