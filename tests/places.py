"""Where things are, and how the command is called."""
import os
import subprocess
import sys
from typing import Any

HERE = os.path.dirname(os.path.abspath(__file__))
TOP = os.path.join(HERE, "..")
PYTHON = os.path.join(TOP, "python")
EXAMPLES = os.path.join(TOP, "examples")

PROGRAM = os.environ.get("LAZBENDIX_PROGRAM") or os.path.join(
    TOP, "crates", "hub_main", "out", "hub_main"
)
HAS_PROGRAM = os.path.isfile(PROGRAM) and os.access(PROGRAM, os.X_OK)


def environment(**more: str) -> dict[str, str]:
    """The variables of a call: the program where there is one, and no colours."""
    kept = {name: value for name, value in os.environ.items() if name not in ("NO_COLOR", "TERM")}
    kept |= {"PYTHONPATH": PYTHON, "TERM": "xterm", **more}
    if HAS_PROGRAM:
        kept.setdefault("LAZBENDIX_PROGRAM", PROGRAM)
    return kept


def example(name: str) -> str:
    return os.path.join(EXAMPLES, name)


def example_bytes(name: str) -> bytes:
    with open(example(name), "rb") as file:
        return file.read()


def called(*words: str, data: bytes = b"", **more: Any) -> "subprocess.CompletedProcess[bytes]":
    """The command with these words and this input."""
    more.setdefault("env", environment())
    return subprocess.run(
        [sys.executable, "-m", "lazbendix", *words], input=data, capture_output=True, **more
    )


def errors(call: "subprocess.CompletedProcess[bytes]") -> str:
    """What a call wrote on standard error, but for the note that no program is installed."""
    lines = call.stderr.decode().splitlines(keepends=True)
    return "".join(line for line in lines if "so the reference plays" not in line)
