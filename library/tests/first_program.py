#!/usr/bin/env python3
"""Takes the first program of library/README.md out of the page, and what the page says that it prints.

    python3 library/tests/first_program.py FOLDER

Writes first.c and first.text, and failing.c and failing.text, in which the heater fails.
"""
import os
import re
import sys

PAGE = os.path.join(os.path.dirname(os.path.abspath(__file__)), "..", "README.md")
WORKED, DEAD = "turn.ticket, LAZBENDIX_WORKED", "turn.ticket, turn.device == 1 ? LAZBENDIX_DEAD : LAZBENDIX_WORKED"


def blocks(page: str) -> list[str]:
    """The page's parts that are set in by four blanks."""
    return [re.sub("^    ", "", block, flags=re.M) for block in re.findall(r"(?:^    .*\n|^\n(?=    ))+", page, re.M)]


def main() -> None:
    with open(PAGE, encoding="utf-8") as file:
        found = [block.strip("\n") + "\n" for block in blocks(file.read())]
    at = next(number for number, block in enumerate(found) if block.startswith("#include"))
    program, printed, failing = found[at], found[at + 2], found[at + 3]
    assert WORKED in program
    for name, text in (("first.c", program), ("first.text", printed), ("failing.c", program.replace(WORKED, DEAD)), ("failing.text", failing)):
        with open(os.path.join(sys.argv[1], name), "w", encoding="utf-8") as file:
            file.write(text)


if __name__ == "__main__":
    main()
