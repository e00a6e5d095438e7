#!/usr/bin/env python3
"""Measures the pages against their bars; prints each page that is over one, and ends with 1 then.

    python3 -m dev.pages [--write] [--show PAGE] [--counts]

dev/pages.tsv has a line for each page: its name, the most words that it may have, how many words
of the forbidden list it may still have, its reading grade, and the columns of its code, at most;
and a line for all pages of docs and crates with README.md together.

`--write` lowers the numbers: of words to a tenth more than is counted (a hundredth for all
together), the others to what is counted but never below the bar of all pages. It gives a new page
its line, drops that of a page that is gone, and raises nothing. To raise a number, change it, or
take the line out and write it anew; the commit says why.

`--show PAGE` prints the forbidden words of a page, and the sentences that weigh most in its grade.
`--counts` prints the counts of every page.

What is asked of a page:

- **Words**: at most as many as its line says, as `wc -w` counts them.
- **Forbidden words**: those of FORBIDDEN below, in the prose. The goal is none on any page.
- **Grade**: the Flesch-Kincaid grade of its prose, 0.39 words a sentence + 11.8 syllables a word
  - 15.59. The bar of all pages is BAR below.
- **Columns**: a line of code has at most 120 characters; a row of a table has as many cells as its
  head. (A page that had longer lines keeps them until they go.)
- **Links**: README.md leads to the page, over other pages or directly.

Prose is what is left of a page without code blocks, headings, pictures, HTML comments and short
cells of tables (a cell counts from ten words on). A link counts by its text, a name in backquotes
as one word of one syllable. A paragraph, an entry of a list and a cell each end a sentence.

BAR was measured on 2026-12-01, by `grade` below, over the text of pages of SQLite's documentation
(3.40.1): a paragraph, an entry of a list and a long cell as here, code as one word. See SAMPLES.
"""
from __future__ import annotations

import argparse
import os
import re
import sys
from collections.abc import Iterator
from typing import NamedTuple

from dev.check_pages import PAGES, files_of, read

TABLE = "dev/pages.tsv"
ALL = "docs and crates"
FIRST = "README.md"
CODE_COLUMNS = 120
CELL = 10
# page: its words of prose, words a sentence, grade
SAMPLES = {
    "about": (571, 15.4, 10.2),
    "arch": (1351, 17.8, 9.7),
    "atomiccommit": (9918, 21.0, 11.1),
    "cintro": (2083, 16.3, 9.8),
    "faq": (4221, 15.6, 8.7),
    "fileformat2": (13413, 19.4, 9.5),
    "howtocorrupt": (4815, 20.1, 11.1),
    "isolation": (1901, 22.9, 12.3),
    "lang_transaction": (1164, 20.1, 12.0),
    "limits": (2425, 19.7, 10.4),
    "lockingv3": (4020, 18.4, 9.9),
    "quickstart": (333, 19.6, 9.1),
    "testing": (6808, 18.6, 10.4),
    "wal": (4433, 22.1, 11.8),
    "whentouse": (2283, 20.2, 11.9),
}
FORBIDDEN = {
    "behind": "after, below, under",
    "told": "reported, given, said",
    "tells": "reports, says",
    "stands": "is, holds",
    "stand": "are, hold",
    "stood": "was, held",
    "whoever": "you, who",
    "is no": "is not a",
}
FOUND = re.compile(
    r"\b(?:behind|told|tells|stands?(?!-)|stood|whoever|(?<!there )is no(?! longer| more| less))\b",
    re.I,
)


class Counts(NamedTuple):
    """What a page has, or may have."""

    words: int
    forbidden: int
    grade: float
    columns: int


def weighed(samples: dict[str, tuple[int, float, float]]) -> float:
    """The grade of all samples together, each by its words."""
    return sum(words * at for words, _, at in samples.values()) / sum(
        words for words, _, _ in samples.values()
    )


BAR = round(weighed(SAMPLES), 1)


# -- Reading


def without_code(text: str) -> str:
    """The page without code blocks, comments and pictures."""
    text = re.sub(r"<!--.*?-->", "", text, flags=re.DOTALL)
    text = re.sub(r"^```.*?^```", "", text, flags=re.DOTALL | re.MULTILINE)
    text = re.sub(r"(?m)(?:^|(?<=\n\n))(?: {4}|\t)(?! *[-*\d]).*$", "", text)
    return re.sub(r"!\[[^\]]*\]\([^)]*\)", "", text)


def plain(text: str) -> str:
    """The words of a part: links by their text, names in backquotes as one short word."""
    text = re.sub(r"\[([^\]]*)\]\([^)]*\)", r"\1", text)
    text = re.sub(r"`[^`\n]+`", "x", text)
    return re.sub(r"[*_#>]+", " ", text)


def parts(text: str) -> Iterator[str]:
    """The paragraphs, the entries of lists and the cells of a page."""
    for line in without_code(text).splitlines():
        line = line.strip()
        if not line or line.startswith("#") or set(line) <= set("|-: "):
            continue
        if line.startswith("|"):
            cells = re.split(r"(?<!\\)\|", line.strip("|"))
            yield from (plain(it) for it in cells)
        else:
            yield plain(re.sub(r"^(?:[-*]|\d+\.) ", "", line))


def words_of(part: str) -> list[str]:
    return re.findall(r"[A-Za-z][A-Za-z'’-]*|\d[\d,.]*", part)


def prose(text: str) -> Iterator[str]:
    """The sentences that count for the grade."""
    for line in without_code(text).splitlines():
        cells = line.strip().startswith("|")
        for part in parts(line):
            if not cells or len(words_of(part)) >= CELL:
                yield from sentences(part)


def sentences(part: str) -> Iterator[str]:
    for it in re.split(r"(?<=[.!?:;])[\s)\"]+(?=[A-Z0-9\"(x]|$)", part):
        if words_of(it):
            yield it


def syllables(word: str) -> int:
    word = word.lower()
    if not word[0].isalpha():
        return 1
    word = re.sub(r"(?:[^laeiouy]es|[^aeiouytd]ed|[^laeiouy]e)$", lambda it: it[0][0], word)
    return max(1, len(re.findall(r"[aeiouy]+", word)))


def grade(said: list[str]) -> tuple[float, float]:
    """Words a sentence, and the Flesch-Kincaid grade."""
    words = [word for it in said for word in words_of(it)]
    if not words:
        return 0.0, 0.0
    long = len(words) / len(said)
    return long, 0.39 * long + 11.8 * sum(map(syllables, words)) / len(words) - 15.59


# -- Judging


def counts(page: str) -> Counts:
    text = read(page)
    return Counts(
        len(text.split()),
        sum(len(FOUND.findall(part)) for part in parts(text)),
        round(grade(list(prose(text)))[1], 1),
        max((len(line) for line in text.splitlines() if line.startswith("    ")), default=0),
    )


def allowed() -> dict[str, Counts]:
    """The table: what each page may have."""
    rows = [line.split("\t") for line in read(TABLE).splitlines() if not line.startswith("#")]
    return {
        page: Counts(int(words), int(bad), float(at), int(columns))
        for page, words, bad, at, columns in rows
    }


def words_in_all(pages: list[str]) -> int:
    """The words of docs and crates, and of README.md."""
    counted = [page for page in pages if page == FIRST or page.startswith(("docs/", "crates/"))]
    return sum(counts(page).words for page in counted)


def uneven(page: str) -> Iterator[str]:
    """Rows that have not the cells of their head."""
    head = 0
    for number, line in enumerate(read(page).splitlines(), 1):
        row = re.sub(r"`[^`\n]*`", "", line.strip())
        cells = len(re.findall(r"(?<!\\)\|", row)) if row.startswith("|") else 0
        if cells and head and cells != head:
            yield f"{page}:{number}: {cells - 1} cells, where the head has {head - 1}"
        head = head or cells if cells else 0


def led_to(first: str) -> set[str]:
    """The pages to which the links of the first one lead, over others too."""
    reached, open_pages = {first}, [first]
    while open_pages:
        page = open_pages.pop()
        for link in re.findall(r"\]\(([^)\s#]+)", read(page)):
            to = os.path.normpath(os.path.join(os.path.dirname(page), link))
            to = f"{to}/README.md" if os.path.isdir(to) else to
            if to.endswith(".md") and os.path.isfile(to) and to not in reached:
                reached.add(to)
                open_pages.append(to)
    return reached


def what_is_wrong(pages: list[str], most: dict[str, Counts]) -> Iterator[str]:
    reached, words = led_to(FIRST), words_in_all(pages)
    if words > most[ALL].words:
        yield f"{ALL}: words {words}, at most {most[ALL].words}"
    for page in pages:
        if page not in most:
            yield f"{page}: has no line in {TABLE} (python3 -m dev.pages --write)"
            continue
        for what, has, may in zip(Counts._fields, counts(page), most[page]):
            if has > may:
                yield f"{page}: {what} {has}, at most {may}"
        yield from uneven(page)
        if page not in reached:
            yield f"{page}: no link leads there from {FIRST}"
    yield from (f"{TABLE}: there is no page {page}" for page in most if page not in [*pages, ALL])


# -- Writing


def a_tenth_more(words: int) -> int:
    return -(-words * 11 // 100) * 10


def a_hundredth_more(words: int) -> int:
    return -(-words * 101 // 10000) * 100


def lowered(pages: list[str], most: dict[str, Counts]) -> str:
    """The table with its numbers lowered."""
    most_words = a_hundredth_more(words_in_all(pages))
    if ALL in most:
        most_words = min(most_words, most[ALL].words)
    lines = ["# page\twords\tforbidden words\tgrade\tcolumns of code"]
    lines.append(f"{ALL}\t{most_words}\t0\t0\t0")
    for page in pages:
        has = counts(page)._replace(words=a_tenth_more(counts(page).words))
        may = most.get(page, has)
        lowest = Counts(
            min(has.words, may.words),
            min(has.forbidden, may.forbidden),
            max(BAR, min(has.grade, may.grade)),
            max(CODE_COLUMNS, min(has.columns, may.columns)),
        )
        lines.append("\t".join([page, *map(str, lowest)]))
    return "\n".join(lines) + "\n"


def show(page: str) -> None:
    """What weighs most in a page."""
    for number, line in enumerate(read(page).splitlines(), 1):
        for part in parts(line):
            for found in FOUND.finditer(part):
                near = part[max(0, found.start() - 30) : found.end() + 30].strip()
                print(f"{page}:{number}: {found[0]} ({FORBIDDEN[found[0].lower()]}): {near}")
    for said in sorted(prose(read(page)), key=lambda it: -grade([it])[1])[:10]:
        print(f"grade {grade([said])[1]:.0f}: {said.strip()}")


def main() -> None:
    reader = argparse.ArgumentParser(
        description=__doc__, formatter_class=argparse.RawDescriptionHelpFormatter
    )
    reader.add_argument("--write", action="store_true", help="lower the numbers of the table")
    reader.add_argument("--show", metavar="PAGE", help="print what weighs most in a page")
    reader.add_argument("--counts", action="store_true", help="print the counts of every page")
    given = reader.parse_args()
    pages = files_of(PAGES)
    if given.show:
        show(given.show)
        return
    if given.counts:
        for page in pages:
            print(page, *counts(page))
        print("all", sum(counts(page).words for page in pages))
        return
    if given.write:
        text = lowered(pages, allowed() if os.path.exists(TABLE) else {})
        with open(TABLE, "w", encoding="utf-8") as file:
            file.write(text)
    wrong = list(what_is_wrong(pages, allowed()))
    print("\n".join(wrong or ["each page is within its bars, and README leads to it"]))
    sys.exit(bool(wrong))


if __name__ == "__main__":
    main()
