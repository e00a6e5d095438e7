#!/usr/bin/env python3
"""Shows that what crosses crates in proofs stands in one file of each crate, proofs/Cited.antt;
ends with 1 where it does not.

    python3 -m dev.check_cited

- in each proofs/Lib.antt only `Cited` is `pub mod`, so the prover refuses to name another file from
  outside;
- no proof cites another crate's proofs but by its `Cited`, and no name that this does not pass on;
- each name in a `Cited` is cited by a proof of another crate.

The first two the prover says too, crate by crate and later. Proofs of the toolchain's own libraries
are cited where they stand, and so is what the prover makes of a type, that it may be sent and
shared.
"""
import glob
import os
import re
import sys
from collections.abc import Iterator

os.chdir(os.path.join(os.path.dirname(os.path.abspath(__file__)), ".."))
CRATES = set(os.listdir("crates"))
IMPORT = re.compile(
    r"\bRattle\.([a-z_0-9]+)\.proofs\.([^\s{};(),]+?)(?:\.\{([^}]*)\}|(?=[\s;(),]|$))"
)
LIB = "crates/{}/proofs/Lib.antt"
FACE = "crates/{}/proofs/Cited.antt"


def read(path: str) -> str:
    with open(path, encoding="utf-8") as file:
        return file.read()


def names_in(group: str) -> list[str]:
    """The names in the braces of an import, as they stand where they come from."""
    return [name.split(" as ")[0].strip() for name in group.split(",") if name.strip()]


def imports(path: str) -> Iterator[tuple[str, str, list[str]]]:
    """The crates, files and names of the proofs of other crates that this file cites."""
    own = path.split("/")[1]
    for crate, module, group in IMPORT.findall(re.sub(r"(?m)--.*$", "", read(path))):
        if crate in CRATES - {own} and not module.endswith(".TheSendSync"):
            plain, _, name = module.rpartition(".")
            yield (crate, module, names_in(group)) if group else (
                crate,
                plain or module,
                [name] if plain else [],
            )


def passed_on(crate: str) -> list[str]:
    path = FACE.format(crate)
    groups = (
        re.findall(r"(?m)^(?:unfoldable )?pub use [^\n{]*\{([^}]*)\}", read(path))
        if os.path.exists(path)
        else []
    )
    return [name.split(" as ")[-1].strip() for group in groups for name in group.split(",")]


def what_is_wrong() -> Iterator[str]:
    passed = {crate: passed_on(crate) for crate in sorted(CRATES)}
    cited: dict[str, set[str]] = {crate: set() for crate in CRATES}
    for path in sorted(glob.glob("crates/*/proofs/**/*.antt", recursive=True)):
        for crate, module, names in imports(path):
            if module != "Cited":
                yield (
                    f"{path}: cites {module} of {crate}, which is no business of another crate "
                    f"(proofs/Cited)"
                )
            else:
                cited[crate].update(names)
                yield from (
                    f"{path}: {name} is not in Cited of {crate}"
                    for name in names
                    if name not in passed[crate]
                )
    for crate, names in passed.items():
        yield from (
            f"{FACE.format(crate)}: {name} is cited by no other crate"
            for name in names
            if name not in cited[crate]
        )
        if os.path.exists(LIB.format(crate)):
            shown = re.findall(r"(?m)^pub mod (\S+)", read(LIB.format(crate)))
            yield from (f"{LIB.format(crate)}: {name} is pub" for name in shown if name != "Cited")


def main() -> None:
    wrong = list(what_is_wrong())
    print(
        "\n".join(
            wrong
            or [
                "what crosses crates in proofs stands in the crates' Cited, and each of it is cited"
            ]
        )
    )
    sys.exit(bool(wrong))


main()
