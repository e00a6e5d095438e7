#!/usr/bin/env python3
"""Has `rt lib` take the libraries that `rt ci` has just proved in this checkout, so that the
library of the hub, and the packages of a release, are built over them.

    rt ci && python3 -m dev.proved_libraries && sh library/build.sh

The gate leaves each crate's library in out/ without the mark by which rt's other commands know that
it is of the text that stands, and they would prove each once more. This sets the marks of the
libraries below lazbendix_c and hub_main. It is for the moment behind a gate that passed. Where
earlier commands left libraries in out/, rt puts these back at the gate's end: one that is of the
text that stands is taken, and what is older, or is not there, is left to `rt lib`, which proves it
once more with those above it.

It wants Python 3, and `rt` on the path.
"""
from __future__ import annotations

import os
from typing import Any

from dev.wrong_bodies import load_kit

ROOT = os.path.dirname(os.path.dirname(os.path.realpath(__file__)))
TOPS = ("lazbendix_c", "hub_main")


def main() -> None:
    _, rtlib = load_kit()
    known: dict[str, Any] = {}
    tops = [rtlib.Crate(f"{ROOT}/crates/{name}", ROOT, known) for name in TOPS]
    marked, left = set[str](), []
    for crate in {it.name: it for top in tops for it in top.below()}.values():
        mark = f"{crate.folder}/out/rlib/stamp"
        stands = {it.name for it in crate.below()} <= marked
        if stands and os.path.isdir(crate.rlib) and not os.path.exists(mark):
            with open(mark, "w", encoding="utf-8") as it:
                it.write(crate.stamp())
        if stands and crate.is_built():
            marked.add(crate.name)
        else:
            left.append(crate.name)
    if left:
        print(f"proved_libraries: rt lib proves once more: {' '.join(left)}")


if __name__ == "__main__":
    main()
