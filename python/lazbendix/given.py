"""What the tools for people are given: a script, and its record, by the names of their files; where
no record is named, the day is played."""
import os
import sys
from typing import NamedTuple

from lazbendix.plain import plain_script, yaml_script
from lazbendix.program import Ended, kept_call
from lazbendix.reference.script import Script, read_script
from lazbendix.terminal import note_wait


class Given(NamedTuple):
    """A script and its record."""

    data: bytes  # the script, as the program reads it
    script: Script
    record: str
    name: str  # the script's, without its folder and ending


class Text(NamedTuple):
    """A script as it was written, and as the program reads it: of as many bytes, but of YAML."""

    name: str
    written: bytes
    plain: bytes


class Unplayed(Exception):
    """The day was to be played, and the program ended otherwise than with 0."""

    def __init__(self, ended: Ended) -> None:
        super().__init__(ended.line)
        self.ended = ended


def read_bytes(name: str, what: str) -> bytes:
    """What stands in a file, or on standard input, where the name is `-`. Raises `OSError`."""
    if name == "-":
        note_wait(what)
        return sys.stdin.buffer.read()
    with open(name, "rb") as file:
        return file.read()


def read_text(name: str, is_yaml: bool = False) -> Text:
    """A script. Raises `OSError` and `NoYaml`."""
    written = read_bytes(name, "a script")
    called = "script" if name == "-" else name
    if is_yaml:
        made = yaml_script(written)
        return Text(called, made, plain_script(made))
    return Text(called, written, plain_script(written))


def read_given(text: Text, record: str | None, mode: list[str]) -> Given:
    """A script with its record, or with the record of its replay in a mode. Raises `OSError`,
    `Refusal` and `Unplayed`."""
    script = read_script(text.plain)
    if record is None:
        ended = kept_call(["replay", "--trace", *mode], text.plain)
        if ended.status:
            raise Unplayed(ended)
        told = ended.output
    else:
        told = read_bytes(record, "a record")
    name = os.path.splitext(os.path.basename(text.name))[0]
    return Given(text.plain, script, told.decode("utf-8", "replace"), name)
