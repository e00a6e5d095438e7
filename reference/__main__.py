"""Does what the program does with the same words and the same input, and ends with the same status.

    python3 -m reference replay [--model M] [--scheduler S] [--trace] < SCRIPT
        plays a day, the same record each time
    python3 -m reference run [--model M] [--scheduler S] [--trace] < SCRIPT
        the same here; with threads in the program
    python3 -m reference watch [--model M] [--scheduler S] [--trace] < SCRIPT
        and a line of counts behind it
    python3 -m reference keep [--model M] [--scheduler S] [--trace] < SCRIPT
        goes on behind the windows of home.journal
    python3 -m reference rooms [--model M] [--scheduler S] < SCRIPT
        plays a hub for each room of the home
    python3 -m reference check < SCRIPT, a line %% and RECORD
        prints `agrees`, or says where it does not
    python3 -m reference trial N
        makes up N windows, plays and checks them

M is ev (the default), psv, gsv or wv; S goes with ev, and is fcfs (the default), jit or timeline.
Script and record are read from standard input, and no file is named: `replay <
examples/morning.json`. `keep` keeps its windows in the file home.journal of the current folder. The
check wants `%%` alone on its line:

    (cat day.json; echo; echo %%; cat day.record) | python3 -m reference check

Where a call ends with another status than 0, a line on standard error tells why, as the program's
does; behind 1 and 2 a second one tells what helps. It is called at the top of the repository.
"""
from __future__ import annotations

import os
import sys

from .calls import Call
from .disks import FileDisk

HELP = (["-h"], ["--help"], ["help"])
HINTS = {
    1: "(./lazbendix explain SCRIPT tells where, and what was expected)",
    2: "(python3 -m reference --help tells the words)",
}


class StandardSource:
    def read(self, most: int) -> bytes:
        return os.read(0, most)


class StandardSink:
    def write(self, data: bytes) -> int:
        return os.write(1, data)


def main() -> None:
    if sys.argv[1:] in HELP:
        print(__doc__.strip())
        return
    call = Call(sys.argv[1:], StandardSource(), StandardSink(), FileDisk())
    if call.line is not None:
        print(
            call.line,
            *([HINTS[call.status]] if call.status in HINTS else []),
            sep="\n",
            file=sys.stderr,
        )
    sys.exit(call.status)


main()
