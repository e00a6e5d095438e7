"""Tests dev.pages: the expected counts are made by hand."""
import os
import tempfile
import unittest

from dev import pages


class Counting(unittest.TestCase):
    def test_grade(self) -> None:
        """Three words of one syllable: 0.39 * 3 + 11.8 - 15.59."""
        self.assertAlmostEqual(pages.grade(["The cat sat."])[1], -2.62)

    def test_syllables(self) -> None:
        for word, count in (("cat", 1), ("window", 2), ("device", 2), ("serialize", 3), ("12", 1)):
            self.assertEqual(pages.syllables(word), count, word)

    def test_sentences(self) -> None:
        """A paragraph, an entry of a list and a long cell end a sentence; code is one word."""
        text = "# A heading\n\nOne two. Three `four five`\n\n- six\n\n    code of four words\n"
        self.assertEqual(
            [pages.words_of(it) for it in pages.prose(text)],
            [["One", "two"], ["Three", "x"], ["six"]],
        )
        self.assertEqual(list(pages.prose("| a short cell | b |\n|---|---|\n")), [])

    def test_forbidden_words(self) -> None:
        said = "It stands behind. This is no page; there is no page. `told` [a](behind.md)"
        found = [it[0] for part in pages.parts(said) for it in pages.FOUND.finditer(part)]
        self.assertEqual(found, ["stands", "behind", "is no"])


class Bars(unittest.TestCase):
    def test_numbers_are_only_lowered(self) -> None:
        self.assertEqual([pages.a_tenth_more(it) for it in (100, 101, 0)], [110, 120, 0])
        page = "SECURITY.md"
        low = pages.Counts(1, 0, pages.BAR, pages.CODE_COLUMNS)
        row = pages.lowered([page], {pages.ALL: low, page: low}).splitlines()[-1]
        self.assertEqual(row.split("\t")[:3], [page, "1", "0"])


class Pages(unittest.TestCase):
    def test_links_and_rows(self) -> None:
        with tempfile.TemporaryDirectory() as room:
            first = os.path.join(room, "README.md")
            for name, text in (
                ("README.md", "[a](docs/a.md#part)\n"),
                ("docs/a.md", "[up](../README.md) [b](b.md)\n"),
                ("docs/b.md", "| a | b |\n|---|---|\n| `x|y` | 2 |\n| 1 |\n"),
                ("docs/alone.md", "[b](b.md)\n"),
            ):
                os.makedirs(os.path.dirname(os.path.join(room, name)), exist_ok=True)
                with open(os.path.join(room, name), "w", encoding="utf-8") as file:
                    file.write(text)
            names = {os.path.relpath(page, room) for page in pages.led_to(first)}
            self.assertEqual(names, {"README.md", "docs/a.md", "docs/b.md"})
            b = os.path.join(room, "docs", "b.md")
            self.assertEqual(
                list(pages.uneven(b)), [f"{b}:4: 1 cells, where the head has 2"]
            )

    def test_bar(self) -> None:
        """Within the grades of the samples."""
        grades = [at for _, _, at in pages.SAMPLES.values()]
        self.assertTrue(min(grades) < pages.BAR < max(grades))


if __name__ == "__main__":
    unittest.main()
