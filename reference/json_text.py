"""A JSON text, read strictly, as `serde_json` reads it, with the place of each value in it, or the
byte at which it is none, and why.

Of a member written twice the last one counts. A number with a fraction, an exponent or a sign
before 0, and one that no 64 bits hold, is a float, and no JSON where it is too great for one. At
most 127 brackets are open at once.

Where a text is no JSON, the byte is the first one that does not go on from what stands before it:
of a number that is too great, of an escape and of a bracket too deep their first byte, of a text
that is cut off the one behind its last.
"""
import re
from dataclasses import dataclass, field
from typing import Any

MOST_DEPTH = 127
MOST_DIGITS = 20  # of a whole number that 64 bits hold, with its sign
BLANKS = (b" ", b"\n", b"\r", b"\t")
NUMBER = re.compile(rb"-?(?:0|[1-9][0-9]*)(\.[0-9]+)?([eE][+-]?[0-9]+)?")
STOP = re.compile(rb'["\\\x00-\x1f]')  # in a text: what is no plain letter
UNIT = re.compile(rb"\\u([0-9a-fA-F]{4})")
TOKEN = re.compile(rb"[A-Za-z_$][\w$-]*|[^\s\x80-\xff]")
YAML = re.compile(rb"---|[A-Za-z_][\w-]*:\s|- ")
ESCAPES = {
    b'"': '"',
    b"\\": "\\",
    b"/": "/",
    b"b": "\b",
    b"f": "\f",
    b"n": "\n",
    b"r": "\r",
    b"t": "\t",
}
WORDS = {b"true": True, b"false": False, b"null": None}
CLOSES = {"{": "}", "[": "]"}


class NotJson(Exception):
    """The bytes are no JSON text, from the byte `at` on."""

    def __init__(self, at: int, why: str) -> None:
        super().__init__(why)
        self.at, self.why = at, why


@dataclass
class Node:
    """A value, from the byte `at` up to the one before `end`. A list holds nodes, an object its
    members' nodes by name."""

    at: int
    end: int
    value: Any  # a plain value, a list of nodes, or a dict of them by name
    names: dict[str, int] = field(
        default_factory=dict
    )  # of an object's members, where each name stands
    doubles: list[tuple[str, int]] = field(
        default_factory=list
    )  # names that are written again, and where the earlier ones stand

    def plain(self) -> Any:
        """The value without places."""
        if isinstance(self.value, dict):
            return {name: node.plain() for name, node in self.value.items()}
        return [node.plain() for node in self.value] if isinstance(self.value, list) else self.value


def position(data: bytes, at: int) -> tuple[int, int]:
    """The line and the column of a byte, from 1. Columns count characters, and bytes that are no
    UTF-8 each as one."""
    begin = data.rfind(b"\n", 0, at) + 1
    return data.count(b"\n", 0, at) + 1, len(data[begin:at].decode("utf-8", "surrogateescape")) + 1


class Reader:
    def __init__(self, data: bytes) -> None:
        self.data, self.at, self.open = data, 0, list[tuple[str, int]]()

    def peek(self) -> bytes:
        """The first byte behind blanks, which are passed; none at the end."""
        while self.data[self.at : self.at + 1] in BLANKS:
            self.at += 1
        return self.data[self.at : self.at + 1]

    def stands(self) -> str:
        """What stands at the place, in words."""
        if self.at == len(self.data):
            if not self.open:
                return "the text ends here"
            return f"the text ends here, and the {self.bracket()} is open"
        found = TOKEN.match(self.data, self.at)
        if found:
            return f"{found[0].decode()[:40]} stands there"
        letter = self.data[self.at : self.at + 4].decode("utf-8", "ignore")[:1]
        byte = f"the byte 0x{self.data[self.at]:02x}"
        return f"{letter if letter.isprintable() and letter else byte} stands there"

    def bracket(self) -> str:
        sign, at = self.open[-1]
        line, column = position(self.data, at)
        return f"{sign} of line {line}, column {column}"

    def wanted(self, what: str, advice: str = "") -> NotJson:
        """The reading ends at this place, where something else was to stand."""
        found = self.data[self.at : self.at + 1]
        if found in (b"/", b"#"):
            advice = (
                "JSON has no comments; those from // to the end of their line lazbendix takes out"
            )
        elif found == b"'":
            advice = "texts and names stand in double quotes"
        elif self.data.startswith(b"%%", self.at):
            advice = (
                "%% divides a script from its record where it stands alone on its line: end the "
                "line before it"
            )
        elif self.data.startswith(b"\xef\xbb\xbf", self.at):
            advice = "a byte order mark: save the file without it"
        elif not self.open and YAML.match(self.data, self.at):
            advice = "YAML, as it seems: lazbendix reads it with --yaml"
        return NotJson(
            self.at, f"expected {what}; {self.stands()}" + (f" ({advice})" if advice else "")
        )

    def value(self) -> Node:
        first, begin = self.peek(), self.at
        if first in (b"{", b"["):
            return self.nested(first.decode(), begin)
        if first == b'"':
            text = self.string()
            return Node(begin, self.at, text)
        for word, value in WORDS.items():
            if self.data.startswith(word, begin):
                self.at += len(word)
                return Node(begin, self.at, value)
        return self.number(begin)

    def nested(self, sign: str, begin: int) -> Node:
        if len(self.open) == MOST_DEPTH:
            raise NotJson(begin, f"more than {MOST_DEPTH} brackets are open at once")
        self.open.append((sign, begin))
        self.at += 1
        node = Node(begin, 0, {} if sign == "{" else [])
        if self.peek().decode("latin-1") != CLOSES[sign]:
            self.entries(node, sign)
        self.at += 1
        node.end = self.at
        self.open.pop()
        return node

    def entries(self, node: Node, sign: str) -> None:
        """The entries up to the closing bracket, of which there is at least one."""
        while True:
            if sign == "{":
                self.member(node)
            else:
                node.value.append(self.value())
            stop = self.peek().decode("latin-1")
            if stop == CLOSES[sign]:
                return
            if stop != ",":
                raise self.wanted(
                    f"a comma, or {CLOSES[sign]} for the {self.bracket()}", self.after_number(stop)
                )
            comma = self.at
            self.at += 1
            if self.peek().decode("latin-1") == CLOSES[sign]:
                raise self.wanted(
                    "one more entry",
                    f"no comma stands behind the last one, as at {self.told(comma)}",
                )

    def after_number(self, stop: str) -> str:
        before = self.data[max(self.at - 1, 0) : self.at]
        if before.isdigit() and stop in tuple(".eE0123456789"):
            return (
                "a number has no leading zeros, and digits on both sides of its point and behind "
                "its e"
            )
        return ""

    def told(self, at: int) -> str:
        return "line {}, column {}".format(*position(self.data, at))

    def member(self, node: Node) -> None:
        if self.peek() != b'"':
            raise self.wanted("the name of a member, in double quotes")
        begin = self.at
        name = self.string()
        if self.peek() != b":":
            raise self.wanted(f'a colon behind the name "{name[:40]}"')
        self.at += 1
        if name in node.value:
            node.doubles.append((name, node.names[name]))
        node.names[name] = begin
        node.value[name] = self.value()

    def number(self, begin: int) -> Node:
        found = NUMBER.match(self.data, begin)
        if found is None:
            raise self.wanted("a value")
        self.at = found.end()
        whole = (
            found[1] is None
            and found[2] is None
            and found[0] != b"-0"
            and len(found[0]) <= MOST_DIGITS
        )
        if whole and -(2**63) <= int(found[0]) < 2**64:
            return Node(begin, self.at, int(found[0]))
        value = float(found[0])
        if value in (float("inf"), float("-inf")):
            raise NotJson(
                begin, f"the number {found[0].decode()[:40]} is too great for any reader of 64 bits"
            )
        return Node(begin, self.at, value)

    def string(self) -> str:
        """The text from its opening quote to its closing one."""
        begin = self.at
        self.at += 1
        parts = []
        while True:
            stop_at = STOP.search(self.data, self.at)
            end = stop_at.start() if stop_at else len(self.data)
            try:
                parts.append(self.data[self.at : end].decode("utf-8"))
            except UnicodeDecodeError as wrong:
                raise NotJson(
                    self.at + wrong.start, "bytes that are no UTF-8: save the file as UTF-8"
                ) from None
            self.at = end
            stop = self.data[self.at : self.at + 1]
            if stop == b'"':
                self.at += 1
                return "".join(parts)
            if stop != b"\\":
                raise self.unclosed(begin, stop)
            parts.append(self.escape())

    def unclosed(self, begin: int, stop: bytes) -> NotJson:
        text = f"the text that begins at {self.told(begin)} has no closing quote"
        if stop == b"":
            return NotJson(self.at, f"the text ends here, and {text}")
        return NotJson(
            self.at,
            f"{text} on its line"
            if stop in b"\r\n"
            else f"the byte 0x{stop[0]:02x} stands in a text: write it "
            f"as an escape, \\u{stop[0]:04x}",
        )

    def escape(self) -> str:
        begin = self.at
        kind = self.data[begin + 1 : begin + 2]
        if kind != b"u":
            if kind not in ESCAPES:
                raise NotJson(
                    begin,
                    r"an escape that there is not: only \" \\ \/ \b \f \n \r \t "
                    r"and \u with four digits",
                )
            self.at += 2
            return ESCAPES[kind]
        unit = self.unit()
        if 0xD800 <= unit <= 0xDBFF:
            low = self.unit(begin) if self.data.startswith(b"\\u", self.at) else 0
            if 0xDC00 <= low <= 0xDFFF:
                return chr(0x10000 + (unit - 0xD800) * 0x400 + (low - 0xDC00))
        if 0xD800 <= unit <= 0xDFFF:
            raise NotJson(begin, f"half a surrogate pair, \\u{unit:04x}")
        return chr(unit)

    def unit(self, begin: int | None = None) -> int:
        found = UNIT.match(self.data, self.at)
        if found is None:
            raise NotJson(
                self.at if begin is None else begin, "four hexadecimal digits stand behind \\u"
            )
        self.at = found.end()
        return int(found[1], 16)


def read_places(data: bytes) -> Node:
    """The value with its places. Raises `NotJson`."""
    reader = Reader(data)
    node = reader.value()
    if reader.peek() != b"":
        raise reader.wanted(
            "the end of the text", reader.after_number(reader.peek().decode("latin-1"))
        )
    return node


def read_json(data: bytes) -> Any:
    """The value. Raises `NotJson`."""
    return read_places(data).plain()
