"""YAML whose values know their lines, and the mistakes that are told of them."""
from __future__ import annotations

import difflib
import math
from dataclasses import dataclass, field
from typing import Any, Iterable

import yaml

LARGEST = 1_000_000  # bytes of a file
DEEPEST = 20  # tables and lists in each other


@dataclass(frozen=True, order=True)
class Mistake:
    """What is wrong in a file, and in which line, counted from 1."""

    line: int
    text: str

    def __str__(self) -> str:
        return f"line {self.line}: {self.text}"


@dataclass
class Node:
    """A value of the file. `raw` is the text of a scalar as it is written; YAML's `on` stays so."""

    line: int
    raw: str | None = None
    is_quoted: bool = False
    items: list[Node] | None = None
    table: dict[str, Node] | None = None
    keys: dict[str, int] = field(default_factory=dict)  # the lines of the table's keys

    @property
    def what(self) -> str:
        """What the node is, in words."""
        if self.table is not None:
            return "a table"
        if self.items is not None:
            return "a list"
        return "nothing" if not self.raw else f"`{self.raw}`"

    @property
    def number(self) -> float | None:
        """The number that the scalar writes, none where it writes none."""
        if self.raw is None or self.is_quoted or "_" in self.raw:
            return None
        try:
            number = float(self.raw)
        except ValueError:
            return None
        return number if math.isfinite(number) else None


class Mistakes:
    """Collects what is wrong."""

    def __init__(self) -> None:
        self.found: list[Mistake] = []

    def add(self, line: int, text: str) -> None:
        """Notes a mistake."""
        self.found.append(Mistake(line, text))

    def unknown(self, line: int, what: str, word: str, known: Iterable[str]) -> None:
        """Notes a name that is none of the known ones, with the nearest of them."""
        self.add(line, f"there is no {what} `{shown(word)}`{nearest(word, known)}")


def shown(word: str) -> str:
    """The word as a mistake may show it: short, and without what moves a terminal's cursor."""
    printed = "".join(each if each.isprintable() else "?" for each in word)
    return printed if len(printed) <= 60 else printed[:57] + "..."


def nearest(word: str, known: Iterable[str]) -> str:
    """`, do you mean X?` with the nearest name, or the names where there are few."""
    names = list(known)
    close = difflib.get_close_matches(word.lower(), names, 1, 0.6)
    if close:
        return f"; do you mean `{close[0]}`?"
    return f"; known are {', '.join(names)}" if 0 < len(names) <= 14 else ""


def read_yaml(text: str, mistakes: Mistakes) -> Node | None:
    """The tree of the text, none where it is no YAML; the mistakes say why."""
    if len(text.encode("utf-8", "replace")) > LARGEST:
        mistakes.add(1, f"the file has more than {LARGEST} bytes")
        return None
    try:
        depth = 0
        for event in yaml.parse(text, Loader=yaml.SafeLoader):
            line = event.start_mark.line + 1
            if isinstance(event, yaml.AliasEvent):
                mistakes.add(line, "aliases (`*name`) are not taken here")
                return None
            depth += isinstance(event, yaml.CollectionStartEvent)
            depth -= isinstance(event, yaml.CollectionEndEvent)
            if depth > DEEPEST:
                mistakes.add(line, f"tables and lists stand more than {DEEPEST} deep in each other")
                return None
        tree = yaml.compose(text, Loader=yaml.SafeLoader)
    except yaml.MarkedYAMLError as error:
        mark = error.problem_mark or error.context_mark
        mistakes.add(mark.line + 1 if mark else 1, f"no YAML: {shown(str(error.problem))}")
        return None
    except yaml.reader.ReaderError as error:
        line = text.count("\n", 0, error.position) + 1
        mistakes.add(line, "no YAML: a character that YAML does not take")
        return None
    except RecursionError:
        mistakes.add(1, "no YAML: it is nested too deep")
        return None
    if tree is None:
        mistakes.add(1, "the file is empty")
        return None
    try:
        return _node(tree, mistakes)
    except RecursionError:
        mistakes.add(1, "no YAML: it is nested too deep")
        return None


def _node(tree: Any, mistakes: Mistakes) -> Node:
    line = tree.start_mark.line + 1
    if isinstance(tree, yaml.ScalarNode):
        is_null = tree.tag == "tag:yaml.org,2002:null" and tree.style is None
        return Node(line, "" if is_null else tree.value, tree.style is not None)
    if isinstance(tree, yaml.SequenceNode):
        return Node(line, items=[_node(each, mistakes) for each in tree.value])
    table: dict[str, Node] = {}
    keys: dict[str, int] = {}
    for key, value in tree.value:
        at = key.start_mark.line + 1
        if not isinstance(key, yaml.ScalarNode):
            mistakes.add(at, "a key that is no word")
        elif key.value in table:
            mistakes.add(at, f"`{shown(key.value)}` stands here a second time; "
                             f"the first is in line {keys[key.value]}")
        else:
            table[key.value], keys[key.value] = _node(value, mistakes), at
    return Node(line, table=table, keys=keys)


class Table:
    """A table of the file that is read key by key; at its end the keys that nobody asked for are
    mistakes. Each call answers none, or its default, where the key is not there or wrong."""

    def __init__(self, node: Node, what: str, mistakes: Mistakes) -> None:
        self.node, self.what, self.mistakes = node, what, mistakes
        self.known: list[str] = []
        self.rows = node.table or {}
        if node.table is None:
            mistakes.add(node.line, f"{what} is to be a table, and is {node.what}")

    def has(self, key: str) -> bool:
        """Whether the key is there."""
        return key in self.rows

    def get(self, key: str, is_wanted: bool = False) -> Node | None:
        """The node of the key."""
        self.known.append(key)
        if is_wanted and key not in self.rows and self.node.table is not None:
            self.mistakes.add(self.node.line, f"{self.what} has no `{key}`")
        return self.rows.get(key)

    def wrong(self, node: Node, key: str, wanted: str) -> None:
        """Notes that the key has another value than is wanted."""
        self.mistakes.add(node.line, f"`{key}` of {self.what} is to be {wanted}, and is "
                                     f"{shown(node.what)}")

    def text(self, key: str, default: str = "", is_wanted: bool = False) -> str:
        """A text that is not empty."""
        node = self.get(key, is_wanted)
        if node is None:
            return default
        if not node.raw or len(node.raw) > 400 or not node.raw.isprintable():
            self.wrong(node, key, "a text of at most 400 printable characters")
            return default
        return node.raw

    def number(self, key: str, default: float, low: float, high: float) -> float:
        """A number in this range."""
        node = self.get(key)
        if node is None:
            return default
        number = node.number
        if number is None or not low <= number <= high:
            self.wrong(node, key, f"a number from {low:g} to {high:g}")
            return default
        return number

    def flag(self, key: str, default: bool = False) -> bool:
        """A yes or a no."""
        node = self.get(key)
        words = {"true": True, "yes": True, "on": True, "false": False, "no": False, "off": False}
        if node is None:
            return default
        if node.raw is None or node.raw.lower() not in words:
            self.wrong(node, key, "true or false")
            return default
        return words[node.raw.lower()]

    def seconds(self, key: str, default: float | None, high: float = 86400) -> float | None:
        """A time: `90`, `90s`, `5m`, `2h`, `5 min`."""
        node = self.get(key)
        if node is None:
            return default
        found = seconds_of(node.raw or "")
        if found is None or not 0 < found <= high:
            self.wrong(node, key, f"a time as `90s`, `5m` or `2h`, at most {high:g} s")
            return default
        return found

    def end(self) -> None:
        """Notes the keys that nobody asked for."""
        for key in self.rows:
            if key not in self.known:
                self.mistakes.unknown(self.node.keys[key], f"key of {self.what} called", key,
                                      self.known)


UNITS = {"": 1.0, "s": 1.0, "sec": 1.0, "ms": 0.001, "m": 60.0, "min": 60.0, "h": 3600.0}


def seconds_of(text: str) -> float | None:
    """The seconds of a time with its unit, none where it is no time."""
    number = text.strip().rstrip("abcdefghijklmnopqrstuvwxyz").strip()
    unit = text.strip()[len(number):].strip()
    try:
        value = float(number)
    except ValueError:
        return None
    return value * UNITS[unit] if unit in UNITS and math.isfinite(value) else None
