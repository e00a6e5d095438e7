#!/usr/bin/env python3
"""Compares what lazbendix.h, the Python package and the Rust crate declare with the exports of crates/lazbendix_c, as texts.

    python3 library/tests/declarations.py

Each export has to stand in all four, with the same arguments, and each structure with the same members in the same order; the
version of header and exports is that of the file VERSION. It prints the first that differs, and ends with 1.
"""
import glob
import os
import re
import sys

TOP = os.path.join(os.path.dirname(os.path.abspath(__file__)), "..", "..")
Arguments = list[str]
NUMBERS = {"u32": "u32", "u64": "u64", "usize": "size"}
STRUCTURES = {"ToldFault": "fault", "ToldTurn": "turn", "ToldMade": "made", "ToldEntry": "entry", "ToldLeft": "left",
              "ToldItem": "item", "ToldStand": "stand_told", "ToldCounts": "counts_told", "ToldCall": "call"}
RATTLE_OWN = "Global", "&mut Handle"  # the allocator takes no bytes; the handle is that of all calls but a few
C_NUMBERS = {"uint32_t": "u32", "uint64_t": "u64", "size_t": "size", "uint8_t": "u8", "lazbendix_entry": "entry", "lazbendix_made": "made"}


def read(*path: str) -> str:
    with open(os.path.join(TOP, *path), encoding="utf-8") as file:
        return file.read()


def plain(text: str) -> str:
    """The text without comments, attributes and clauses."""
    text = re.sub(r"/\*.*?\*/|//[^\n]*", "", text, flags=re.S)
    return re.sub(r"#\[[^\]]*\]", "", text)


def rattle_argument(kind: str) -> Arguments:
    if kind in ("&[u8]", "&mut [u8]"):
        return ["*u8", "size"]
    if kind.startswith("&"):
        pointed = kind.removeprefix("&").removeprefix("mut ")
        return ["*" + (NUMBERS.get(pointed) or STRUCTURES[pointed])]
    return [NUMBERS[kind]]


def arguments_of(text: str) -> list[str]:
    """The types of the arguments `name: type`."""
    return [kind for _, kind in members_of(text)]


def members_of(text: str) -> list[tuple[str, str]]:
    """The members `name: type`, or arguments."""
    parts = [part.split(":", 1) for part in re.split(r",(?![^\[]*\])", text) if ":" in part]
    return [(name.split()[-1], kind.strip()) for name, kind in parts]


def of_rattle() -> tuple[dict[str, Arguments], dict[str, Arguments]]:
    text = plain("".join(read(path) for path in sorted(glob.glob("crates/lazbendix_c/src/*.rt", root_dir=TOP))))
    exports = {}
    for name, words in re.findall(r'pub extern "C" fn lazbendix_(\w+)\((.*?)\)\s*->\s*i32', text, re.S):
        exports[name] = [it for kind in arguments_of(words) if kind not in RATTLE_OWN for it in rattle_argument(kind)]
    structures = {}
    for name, members in re.findall(r"pub struct (Told\w+) \{(.*?)\}", text, re.S):
        kinds = [("entries" if member in "abc" else member, kind) for member, kind in members_of(members)]
        structures[STRUCTURES[name]] = [f"{member} {NUMBERS.get(kind) or STRUCTURES[kind]}" for member, kind in kinds]
    return exports, structures


def c_argument(words: str) -> str:
    kind = re.sub(r"\bconst\b|\w+$", "", words.strip()).strip() if "*" not in words else re.sub(r"\bconst\b", "", words.split("*")[0]).strip()
    told = C_NUMBERS.get(kind) or kind.replace("lazbendix_", "")
    return "*" + told if "*" in words else told


def of_c() -> tuple[dict[str, Arguments], dict[str, Arguments]]:
    text = plain(read("library", "lazbendix.h"))
    exports = {}
    for name, words in re.findall(r"int32_t lazbendix_(\w+)\((.*?)\);", text, re.S):
        exports[name] = [it for it in map(c_argument, words.split(",")) if it not in ("*hub", "")]
    structures = {}
    for name, members in re.findall(r"typedef struct lazbendix_(\w+) \{(.*?)\}", text, re.S):
        if name == "hub":
            continue
        kinds: list[str] = []
        for line in filter(None, map(str.strip, members.split(";"))):
            kind, names = line.split(None, 1)
            for member, _, many in re.findall(r"(\w+)(\[(\d+)\])?", names):
                kinds += [f"{member} {C_NUMBERS[kind]}"] * int(many or 1)
        structures[name] = kinds
    return exports, structures


def of_rust() -> tuple[dict[str, Arguments], dict[str, Arguments]]:
    text = plain(read("library", "rust", "src", "calls.rs"))
    exports = {}
    for name, words in re.findall(r"lazbendix_(\w+) as \w+\((.*?)\);", text):
        exports[name] = [it for kind in arguments_of(words) for it in rattle_argument(kind)]
    pointers = {"*mut": "*", "*const": "*"}
    for name, words in re.findall(r"fn lazbendix_(\w+)\((.*?)\)\s*->\s*i32;", text, re.S):
        told = [re.sub(r"\*(?:mut|const) ", lambda it: pointers[it[0].strip()], kind) for kind in arguments_of(words) if kind != "*mut Handle"]
        exports[name] = [re.sub(r"\w+", lambda it: NUMBERS.get(it[0]) or STRUCTURES.get(it[0], it[0]), kind) for kind in told]
    structures = {}
    for name, members in re.findall(r"struct (Told\w+) \{(.*?)\}", text, re.S):
        kinds: list[str] = []
        for member, kind in members_of(members):
            many = re.fullmatch(r"\[(\w+); (\d+)\]", kind)
            told_kind = many[1] if many else kind
            kinds += [f"{member} {NUMBERS.get(told_kind) or STRUCTURES[told_kind]}"] * (int(many[2]) if many else 1)
        structures[STRUCTURES[name]] = kinds
    return exports, structures


def of_python() -> tuple[dict[str, Arguments], dict[str, Arguments]]:
    text = read("python", "lazbendix", "_calls.py")
    numbers = {"c_uint32": "u32", "c_uint64": "u64", "c_size_t": "size", "c_uint8": "u8"}

    def argument(word: str) -> Arguments:
        if word in ("*BYTES", "*ROOM"):
            return ["*u8", "size"]
        pointed = re.fullmatch(r"POINTER\((\w+)\)", word)
        return ["*" + (numbers.get(pointed[1]) or STRUCTURES[pointed[1]])] if pointed else [numbers[word]]

    exports = {}
    for name, words in re.findall(r'^    "(\w+)": \[(.*)\],$', text, re.M):
        exports[name] = [it for word in filter(None, words.split(", ")) for it in argument(word)]
    structures = {}
    for name, members in re.findall(r"^class (Told\w+)\(ctypes.Structure\):\n(.*?)\n\n", text, re.M | re.S):
        kinds: list[str] = []
        for member, kind, _, many in re.findall(r'\("(\w+)", (\w+)( \* (\d+))?\)', members):
            kinds += [f"{member} {STRUCTURES.get(kind) or numbers[kind]}"] * int(many or 1)
        listed = re.search(r"for name in \((.*?)\)\s*\]", members, re.S)
        kinds += [f"{member} u32" for member in re.findall(r'"(\w+)"', listed[1])] if listed else []
        structures[STRUCTURES[name]] = kinds
    return exports, structures


def version() -> int:
    """The number of the file VERSION, 1.2.3 as 1002003."""
    first, second, third = map(int, read("VERSION").strip().split("."))
    return (first * 1000 + second) * 1000 + third


def versions() -> dict[str, int]:
    """The numbers of the version that are written down elsewhere."""
    crate = "crates", "lazbendix_c"
    places = {"lazbendix.h": ("library", "lazbendix.h"), "the code of lazbendix_c": (*crate, "src", "query_calls.rt"),
              "its specification": (*crate, "specs", "Queries.antt")}
    ways = r"#define LAZBENDIX_VERSION (\d+)", r"\bconst VERSION: i32 = ([\d_]+);", r"(?m)^version = pos (\d+)$"
    return {place: int((re.search(way, read(*path)) or ["", "0"])[1]) for (place, path), way in zip(places.items(), ways)}


def main() -> None:
    exports, structures = of_rattle()
    if len(exports) < 20 or len(structures) != len(STRUCTURES):
        sys.exit("declarations: the exports of crates/lazbendix_c are not found")
    for language, (others, laid_out) in (("lazbendix.h", of_c()), ("Rust", of_rust()), ("Python", of_python())):
        for what, ours, theirs in (("export", exports, others), ("structure", structures, laid_out)):
            for name in sorted(ours.keys() | theirs.keys()):
                if ours.get(name) != theirs.get(name):
                    sys.exit(f"declarations: {what} {name}: {ours.get(name)}, in {language} {theirs.get(name)}")
    for place, number in versions().items():
        if number != version():
            sys.exit(f"declarations: the version of {place} is {number}, and that of VERSION {version()}")
    print(f"{len(exports)} exports and {len(structures)} structures are declared as they are")


if __name__ == "__main__":
    main()
