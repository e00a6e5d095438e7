"""Forges logs out of a true one, and has each refused: release.make takes the true one alone.

    python3 -m release.forged LOG

LOG is what `rt ci --anew` printed in this tree, whose libraries the gate left. Prints of each
forged log why it is refused. Ends with 1 where the true one is refused, or a forged one taken.
"""
import re
import sys
import tempfile
from collections.abc import Iterator

from release import certificate
from release.certificate import Refused
from release.machines import Parts, sum_of


def part_of(text: str, crate: str) -> tuple[int, int]:
    """Where the log tells of a crate: the first letter, and the one behind the last."""
    begin = text.index(f"== {crate}\n")
    end = text.index(f"rt: {crate} proved\n", begin)
    return begin, end + len(f"rt: {crate} proved\n")


def forgeries(text: str, library: str, other: str) -> Iterator[tuple[str, str]]:
    """What is done to the log, and the log that comes of it, for two crates that are libraries."""
    begin, end = part_of(text, library)
    part = text[begin:end]
    found = re.search(r"(?m)^fn (\S+): proved.*\n", part)
    verdict = re.search(r"(?m)^logic=proved functions=(\d+) .*\n", part)
    assert found and verdict, f"the log names functions of {library}"
    function, line = found[1], found[0]

    def with_part(changed: str) -> str:
        return text[:begin] + changed + text[end:]

    yield "its last line alone", text.rstrip().split("\n")[-1] + "\n"
    yield "its first half", text[: len(text) // 2]
    yield "a gate that failed", re.sub(r"passed, 0 failed\s*\Z", "passed, 1 failed\n", text)
    yield "no word of --anew", text.replace(certificate.ANEW, "the others are kept")
    yield f"nothing of {library}", with_part("")
    yield f"{library} is kept", with_part(f"rt: {library} is kept: an earlier run\n")
    yield f"{function} is left out", with_part(part.replace(line, ""))
    yield f"{function} is not proved", with_part(part.replace(line, f"fn {function}: not proved\n"))
    yield "a function that there is not", with_part(part.replace(function, f"{function}_x", 1))
    yield "two verdicts", with_part(part.replace(verdict[0], verdict[0] * 2))
    logic = re.sub(r"sum=[0-9a-f]+", "sum=0123456789abcdef", part)
    yield "another logic", with_part(logic)
    head = f"== {library}\n"
    theirs = text[slice(*part_of(text, other))]
    stolen = theirs.replace(f"== {other}\n", head)
    stolen = stolen.replace(f"rt: {other} proved\n", f"rt: {library} proved\n")
    yield f"the functions of {other} under the name of {library}", with_part(stolen)


def main() -> None:
    if len(sys.argv) != 2:
        sys.exit(__doc__)
    with open(sys.argv[1], encoding="utf-8", errors="replace") as file:
        text = file.read()
    with tempfile.TemporaryDirectory() as room:
        parts = Parts(f"{room}/none", room, True)
        try:
            proofs, sums = certificate.proofs_of(sys.argv[1], parts)
        except Refused as why:
            sys.exit(f"forged: {sys.argv[1]} itself is refused: {why}")
        count = sum(it.functions for it in proofs.values())
        print(f"true: {len(proofs)} crates, {count} functions, {len(sums)} libraries")
        library, other = sorted(sums, key=lambda it: -proofs[it].functions)[:2]
        taken = 0
        for what, forged in forgeries(text, library, other):
            path = f"{room}/log"
            with open(path, "w", encoding="utf-8") as file:
                file.write(forged)
            assert sum_of(path) != sum_of(sys.argv[1]), what
            try:
                certificate.proofs_of(path, parts)
                taken += 1
                print(f"TAKEN: {what}")
            except Refused as why:
                print(f"refused: {what}: {str(why)[:160]}")
    sys.exit(1 if taken else 0)


if __name__ == "__main__":
    main()
