#!/usr/bin/env python3
"""Looks up what the pages name, and prints each thing that is not found; ends with 1 then.

    python3 -m dev.check_pages [--link]

In the pages at the top, in docs, and in the READMEs of the crates, the examples, the reference and
the library:

- a link leads to a file, and behind a `#` to a heading of that page; one that leaves the repository
  is an https address, and is not followed;
- a path of the repository leads to a file, and where it is a file's whole path it is a link, but in
  code;
- a name in backquotes (of a clause, a call, a definition, a crate, a member) stands in some source;
- where a page says "`name`, `name` (crate, File)", or "(File)" of the crate that it named last,
  each name stands in that file of the crate;
- the number in VERSION is that of the topmost part of CHANGELOG.md.

That the thing named is what the sentence says of it, it does not see. With `--link` the paths that
should be links are made into links first, `docs/PAGE.md, "Heading"` into one to the heading.
"""
import argparse
import glob
import os
import re
import sys
from collections.abc import Iterator

os.chdir(os.path.join(os.path.dirname(os.path.abspath(__file__)), ".."))
PAGES = [
    "*.md",
    "docs/*.md",
    "*/README.md",
    "crates/*/README.md",
    "examples/*/README.md",
    "library/*/README.md",
]
SOURCES = [
    "crates/**/*.rt",
    "crates/**/*.antt",
    "crates/**/*.sh",
    "crates/**/*.edit",
    "reference/*.py",
    "dev/*",
    "bench/*.py",
    "tests/*",
    "tools/*",
    "python/*",
    "python/*/*.py",
    "python/lazbendix/viewer_page/*",
    "lazbendix",
    "examples/*",
    "examples/*/*",
    "docs/*.json",
    "crates.txt",
    "HANDLES",
    "library/*.h",
    "library/*.sh",
    "library/*/*",
    "library/*/*/*",
    "hub/*.sh",
    "hub/*.service",
    "hub/lazbendix_hub/*",
    "hub/tests/*.py",
]
NAME = re.compile(r"[^\W\d]\w*(?:(?:::|\.)[^\W\d]\w*)*")
QUOTED = r"`[^`\n]+`"
PLACED = re.compile(
    rf"((?:{QUOTED}(?:, | and |; )?(?:with )?)+) \((?:([a-z]+_[a-z_]+), )?(?:proofs/)?"
    r"((?:\w+/)*[A-Z]\w+)\)"
)
PATH = re.compile(
    r"(?<![\w/.<-])("
    r"(?:crates|docs|dev|examples|reference|tests|tools|python|bench|proofs|specs|src)/[\w./-]*\w)"
)
# a crate that is gone, names with a number to fill in, a device of a trial, and the toolchain and
# its like
OUTSIDE = (
    "plain_rules at_K clauses_K give_K d00 logic valgrind callgrind clang " "ulimit malloc NaN mypy"
)
MADE = re.compile("CRATE|NAME|/out/")
LINKED = re.compile(
    r"(^```.*?^```|^    [^\n]*$|`[^`\n]+`|!?\[[^\]\n]*\]\([^)\n]*\))", re.MULTILINE | re.DOTALL
)  # or code
BARE = re.compile(PATH.pattern + r"""(?:, "([^"\n]+)")?""")


def read(path: str) -> str:
    with open(path, encoding="utf-8", errors="replace") as file:
        return file.read()


def files_of(patterns: list[str]) -> list[str]:
    return sorted(
        {
            path
            for pattern in patterns
            for path in glob.glob(pattern, recursive=True)
            if os.path.isfile(path)
        }
    )


def parts(name: str) -> set[str]:
    return set(re.split(r"::|\.", name)) if NAME.fullmatch(name) else set()


def leads_somewhere(path: str, folder: str) -> bool:
    return bool(
        glob.glob(f"{path}*")
        or glob.glob(f"{folder or '.'}/{path}*")
        or glob.glob(f"crates/*/{path}*")
    )


def anchor(heading: str) -> str:
    """The name that a forge gives to a heading."""
    return re.sub(r"[^\w\- ]", "", heading.strip().lower()).replace(" ", "-")


def anchors(path: str) -> set[str]:
    return {anchor(it) for it in re.findall(r"(?m)^#+ (.*)$", read(path))}


def leads_nowhere(link: str, folder: str, page: str) -> bool:
    """Whether a link leads to no file, or to no heading of its page."""
    if re.match(r"\w+:", link):
        return not link.startswith("https://")
    path, _, heading = link.partition("#")
    path = os.path.join(folder, path) if path else page
    return not os.path.exists(path) or bool(heading) and heading not in anchors(path)


def file_of(path: str, folder: str) -> str | None:
    """The file or folder of the repository that has this whole path, seen from the top or from the
    page's folder; or none.
    """
    found = [
        it
        for it in (path, os.path.join(folder, path))
        if os.path.exists(it) and not MADE.search(path)
    ]
    return found[0] if found else None


def with_links(page: str) -> str:
    """The text of the page with a link for each path that stands bare."""
    folder = os.path.dirname(page)

    def link(found: re.Match[str]) -> str:
        path, heading = found.groups()
        file = file_of(path, folder)
        if not file or os.path.samefile(file, page):
            return found[0]
        to = os.path.relpath(file, folder or ".")
        if heading and file.endswith(".md") and anchor(heading) in anchors(file):
            return f"[{found[0]}]({to}#{anchor(heading)})"
        return f"[{path}]({to})" + found[0][len(path) :]

    parts = LINKED.split(read(page))
    return "".join(it if k % 2 else BARE.sub(link, it) for k, it in enumerate(parts))


def bare_paths(page: str) -> Iterator[str]:
    """The whole paths in the page that are neither links nor code."""
    folder = os.path.dirname(page)
    for path in PATH.findall(LINKED.sub("", read(page))):
        file = file_of(path, folder)
        if file and not os.path.samefile(file, page):
            yield path


def not_found(page: str, words: dict[str, set[str]], known: set[str]) -> Iterator[str]:
    """What the page names and is not there."""
    text, folder = re.sub(r"(?m)^    .*$", "", read(page)), os.path.dirname(page)
    for link in re.findall(r"\]\(([^)\s]+)\)", text):
        if leads_nowhere(link, folder, page):
            yield f"link {link}"
    for path in bare_paths(page):
        yield f"path {path} is no link (check_pages.py --link)"
    text = re.sub(r"\]\([^)\s]*\)", "]", text)
    for path in PATH.findall(text):
        if not MADE.search(path) and not leads_somewhere(path, folder):
            yield f"path {path}"
    for name in re.findall(r"`([^`\n]+)`", text):
        if not parts(name) <= known:
            yield f"`{name}`"
    crate = os.path.basename(folder)
    for names, named, file in PLACED.findall(text):
        crate = named or crate
        places = [
            path for path in words if re.fullmatch(rf"crates/{crate}/(?:.*/)?{file}\.antt", path)
        ]
        there = set().union(*(words[path] for path in places))
        for name in re.findall(r"`([^`]+)`", names):
            if places and not parts(name) <= there or named and not places:
                yield f"`{name}` in {crate}, {file}"


def version_is_told() -> bool:
    """Whether the topmost part of the changes is that of the version."""
    parts = re.findall(r"(?m)^## (.*)$", read("CHANGELOG.md"))
    return parts[:1] == [read("VERSION").strip()]


def main() -> None:
    reader = argparse.ArgumentParser(
        description=__doc__, formatter_class=argparse.RawDescriptionHelpFormatter
    )
    reader.add_argument(
        "--link", action="store_true", help="make the paths that should be links into links"
    )
    if reader.parse_args().link:
        for page in files_of(PAGES):
            text = with_links(page)
            if text != read(page):
                with open(page, "w", encoding="utf-8") as file:
                    file.write(text)
    words = {path: set(re.findall(r"[^\W\d]\w*", read(path))) for path in files_of(SOURCES)}
    stems = {os.path.splitext(os.path.basename(path))[0] for path in words}
    known = stems.union(OUTSIDE.split(), os.listdir("crates"), *words.values())
    missing = [
        f"{page}: {what}" for page in files_of(PAGES) for what in not_found(page, words, known)
    ]
    missing += (
        [] if version_is_told() else ["CHANGELOG.md: the topmost part is not that of VERSION"]
    )
    print("\n".join(missing or ["all that the pages name is there"]))
    sys.exit(bool(missing))


if __name__ == "__main__":
    main()
