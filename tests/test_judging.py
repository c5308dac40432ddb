#!/usr/bin/env python3
"""Rows for the second judge, each with the answer that docs/FORMATS.md gives: `python3 tests/test_judging.py`."""

from __future__ import annotations

import sys
import unittest
from dataclasses import replace
from pathlib import Path
from random import Random

ROOT = Path(__file__).resolve().parent.parent
sys.path[:0] = [str(ROOT / "tools"), str(ROOT / "tests")]

from changing import equivalent_entry
from judging import converted, judged
from ltypes_atlas import text


def spelt(dimension: int, version: int) -> bytes:
    """The stored atlas in a version of the text."""
    lines = (ROOT / "results" / f"atlas-{dimension}.txt").read_text().splitlines(keepends=True)
    return "".join(text.written(text.read(lines), version)).encode()


PLANE, FOUR = spelt(2, 2), spelt(4, 2)
FIRST_PLANE, FIRST_FOUR = spelt(2, 1), spelt(4, 1)
ACCEPTED = "ok types 1 facets 3 crossed 3 undecided 0"

# the dimension that is asked for, the text, what is replaced by what, and the answer
ROWS: list[tuple[int, bytes, bytes, bytes, str]] = [
    (2, PLANE, b"", b"", ACCEPTED),
    (4, FOUR, b"", b"", "ok types 3 facets 30 crossed 30 undecided 0"),
    (2, PLANE, PLANE, b"", "refused: syntax line 1"),
    (2, PLANE, b"end\n", b"end", "refused: syntax line 16"),
    (2, PLANE, b"end\n", b"", "refused: syntax line 16"),
    (2, PLANE, b"end\n", b"end\n ", "refused: syntax line 17"),
    (2, PLANE, b"end\n", b"end\n\n", "refused: syntax line 17"),
    (2, PLANE, b"ltypes 2", b"ltypes 1", "refused: syntax line 1"),
    (2, PLANE, b"ltypes 2", b"ltypes 3", "refused: syntax line 1"),
    (2, PLANE, PLANE, FIRST_PLANE, "refused: syntax line 1"),
    (2, PLANE, b"dimension 2", b"dimension 7", "refused: syntax line 2"),
    (2, PLANE, b"dimension 2", b"dimension 6", "refused: syntax line 6"),
    (2, PLANE, b"dimension 2", b"dimension 3", "refused: syntax line 6"),
    (2, PLANE, b"entries 1", b"entries 100002", "refused: syntax line 3"),
    (2, PLANE, b"entries 1", b"entries 2", "refused: syntax line 16"),
    (2, PLANE, b"simplices 1", b"simplices 2", "refused: syntax line 7"),
    (2, PLANE, b"0 0 0 1 1 1\n", b"0 0 0 1 1 401\n", "refused: syntax line 6"),
    (2, PLANE, b"0 0 0 1 1 1\n", b"0 0 0 1 1 400\n", "refused: not principal"),
    (2, PLANE, b"0 0 0 1 1 1\n", b"0 0 1 0 1 1\n", "refused: not principal"),
    (2, PLANE, b"1\n0 0 0 1 1 1\n", b"2\n0 0 0 1 1 1\n0 0 1 0 1 1\n", "refused: not principal"),
    (2, PLANE, b"marks 3", b"marks 2", "refused: syntax line 12"),
    (2, PLANE, b"wall 1 0 1", b"wall 1 0 %d" % (1 << 62), "refused: syntax line 8"),
    (2, PLANE, b"wall 1 0 1", b"wall 1 -0 1", "refused: syntax line 8"),
    (3, PLANE, b"", b"", "refused: other dimension 2"),
    (6, PLANE, b"", b"", "refused: other dimension 2"),
    (2, FOUR, b"", b"", "refused: other dimension 4"),
    (2, PLANE, b"wall 2 -2 1", b"wall 4 -4 2", "refused: cone 0 1"),
    (2, PLANE, b"wall 2 -2 1", b"wall 3 -3 2", "refused: cone 0 1"),
    (2, PLANE, b"form 1 -1 1", b"form 2 -2 2", "refused: cone 0 3"),
    (2, PLANE, b"cross 0 1 0 -1 1", b"open", "ok types 1 facets 3 crossed 2 undecided 1"),
    (2, PLANE, b"cross 0 1 0 -1 1", b"heavy 0", "ok types 1 facets 3 crossed 2 undecided 1"),
    (2, PLANE, b"cross 0 1 0 -1 1", b"cross 0 -1 0 1 -1", ACCEPTED),
    (2, PLANE, b"cross 0 1 0 -1 1", b"cross 0 1 0 0 1", "refused: cross 0 1"),
    (2, PLANE, b"cross 0 1 0 -1 1", b"cross 1 1 0 -1 1", "refused: cross 0 1"),
    (4, FOUR, b"entry 1 from 0 0", b"entry 1 from 0 1", "refused: origin 1"),
    (4, FOUR, b"entry 1 from 0 0", b"entry 1 from 1 0", "refused: origin 1"),
    (4, FOUR, b"entry 1 from 0 0", b"entry 1 start", "refused: syntax line 41"),
    (4, FOUR, b"scale 1 terms 2 0 1 13 1", b"scale 1 terms 2 13 1 0 1", "refused: cone 1 4"),
    (4, FOUR, b"scale 1 terms 2 0 1 13 1", b"scale 1 terms 2 0 1 19 1", "refused: syntax line 60"),
    (4, FOUR, b"scale 1 terms 2 0 1 13 1", b"scale 2 terms 2 0 2 13 2", "refused: cone 1 4"),
]


class Judge(unittest.TestCase):
    """The answers of the second judge."""

    def test_rows(self) -> None:
        for dimension, data, old, new, answer in ROWS:
            with self.subTest(answer=answer, new=new):
                self.assertIn(old, data)
                self.assertEqual(judged(dimension, data.replace(old, new, 1)).line, answer)

    def test_classes_of_a_later_entry(self) -> None:
        lines = FOUR.splitlines(keepends=True)
        place = lines.index(b"entry 1 from 0 0\n") + 2
        lines[place], lines[place + 1] = lines[place + 1], lines[place]
        self.assertEqual(judged(4, b"".join(lines)).line, "refused: simplices 1")

    def test_twins_of_the_plane(self) -> None:
        """The first matrix sends the first class, by the identical order of vertices, to the first class of entry 0."""
        atlas = text.read(PLANE.decode().splitlines(keepends=True))
        for seed in range(6):
            changed = equivalent_entry(atlas, Random(seed))
            answer = judged(2, "".join(text.written(changed)).encode()).line
            first = changed.entries[1].simplices[0]
            numbers = [int(word) for word in answer.split()[4:]]
            self.assertEqual(answer.split()[:4], ["refused:", "twin", "0", "1"])
            images = tuple(tuple(numbers[k] * x + numbers[k + 1] * y for k in (0, 2)) for x, y in first)
            self.assertEqual(images, atlas.entries[0].simplices[0])

    def test_negatives_of_a_later_entry(self) -> None:
        """The class of the negatives in the place of a class, and beside it in order."""
        atlas = text.read(FOUR.decode().splitlines(keepends=True))
        first, second, third = atlas.entries
        negative = text.negative_of(second.listed[-1])
        for listed in (second.listed[:-1] + (negative,), second.listed + (negative,), second.simplices):
            changed = replace(atlas, entries=(first, replace(second, listed=listed), third))
            self.assertEqual(judged(4, "".join(text.written(changed)).encode()).line, "refused: simplices 1")

    def test_conversions(self) -> None:
        """A text of version 1 is read with every check, and written in version 2 with wide and heavy marks open."""
        for dimension, first, second in ((2, FIRST_PLANE, PLANE), (4, FIRST_FOUR, FOUR)):
            self.assertEqual(converted(dimension, first).line.encode() + b"\n", second)
        opened = PLANE.replace(b"cross 0 1 0 1 1", b"open").decode().removesuffix("\n")
        for mark in (b"open", b"heavy 0", b"wide 1 0 0 0 0 0 0"):
            self.assertEqual(converted(2, FIRST_PLANE.replace(b"cross 0 1 0 1 1", mark)).line, opened)
        self.assertEqual(converted(2, PLANE).line, "refused: syntax line 1")
        self.assertEqual(converted(3, FIRST_PLANE).line, "refused: other dimension 2")
        self.assertEqual(converted(2, FIRST_PLANE.replace(b"cross 0 1 0 1 1", b"cross 0 2 0 0 1")).line, "refused: cross 0 0")
        half = PLANE.replace(b"ltypes 2", b"ltypes 1")
        self.assertEqual(converted(2, half).line, "refused: not principal")

    def test_long_texts(self) -> None:
        self.assertEqual(judged(2, b"\n" * ((1 << 26) + 1)).line, "refused: too long")
        self.assertEqual(judged(2, b" " * (1 << 26)).line, "refused: syntax line 1")


if __name__ == "__main__":
    unittest.main()
