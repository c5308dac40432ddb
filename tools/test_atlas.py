#!/usr/bin/env python3
"""Tests of the tools on the texts in results/: `python3 tools/test_atlas.py`."""

from __future__ import annotations

import json
import sys
import unittest
import xml.etree.ElementTree as xml
from dataclasses import replace
from pathlib import Path
from typing import Any, Callable

sys.path.insert(0, str(Path(__file__).resolve().parent))

from ltypes_atlas import blocks, converting, exporting, lattice, ordering, pictures, pruning, tables, text
from ltypes_atlas.rechecking import Recheck
from ltypes_atlas.text import Atlas, Combination, Cross, Entry, Heavy, Origin, Regulator, Simplex, Wall, Wide, half, negative_of

RESULTS = Path(__file__).resolve().parent.parent / "results"
Change = Callable[[Atlas], Atlas]


def lines_of(dimension: int, version: int = 2) -> list[str]:
    """The lines of the stored text, which is of version 2, or of the same atlas in version 1."""
    lines = (RESULTS / f"atlas-{dimension}.txt").read_text().splitlines(keepends=True)
    return lines if version == 2 else list(text.written(text.read(lines), 1))


def stored(dimension: int, version: int = 2) -> Atlas:
    """The stored atlas."""
    return text.read(lines_of(dimension, version))


def faults(atlas: Atlas) -> list[tuple[int, str, int]]:
    """The entry, part and row of each fault that `recheck` finds."""
    return [(fault.entry, fault.part, fault.row) for fault in Recheck(atlas).faults()]


# ---- planted faults, all in entry 1 of dimension 4 unless the name says otherwise


def with_entry(atlas: Atlas, number: int, **parts: Any) -> Atlas:
    """The atlas with other parts of an entry."""
    entries = list(atlas.entries)
    entries[number] = replace(entries[number], **parts)
    return replace(atlas, entries=tuple(entries))


def edited(values: tuple[Any, ...], place: int, *new: Any) -> tuple[Any, ...]:
    """The values with others in the place of one."""
    return values[:place] + new + values[place + 1 :]


def exchanged(values: tuple[Any, ...], i: int, j: int) -> tuple[Any, ...]:
    """The values with two of them exchanged."""
    return edited(edited(values, i, values[j]), j, values[i])


def listed(change: Callable[[tuple[Simplex, ...]], tuple[Simplex, ...]]) -> Change:
    """A change of the listed classes."""
    return lambda atlas: with_entry(atlas, 1, listed=change(atlas.entries[1].listed))


def regulators(change: Callable[[tuple[Regulator, ...]], tuple[Regulator, ...]]) -> Change:
    """A change of the regulators."""
    return lambda atlas: with_entry(atlas, 1, regulators=change(atlas.entries[1].regulators))


def verdict(row: int, change: Callable[[Any], Any]) -> Change:
    """A change of the certificate of a row."""
    return regulators(lambda rows: edited(rows, row, replace(rows[row], verdict=change(rows[row].verdict))))


def marks(change: Callable[[tuple[Any, ...]], tuple[Any, ...]]) -> Change:
    """A change of the marks."""
    return lambda atlas: with_entry(atlas, 1, marks=change(atlas.entries[1].marks))


def mark(place: int, change: Callable[[Cross], Any]) -> Change:
    """A change of one mark."""
    return marks(lambda all_marks: edited(all_marks, place, change(all_marks[place])))


def more(numbers: tuple[int, ...], place: int) -> tuple[int, ...]:
    """The numbers with one more at a place."""
    return edited(numbers, place, numbers[place] + 1)


def doubled(numbers: tuple[int, ...]) -> tuple[int, ...]:
    """Twice the numbers."""
    return tuple(2 * number for number in numbers)


def negated(rows: text.Matrix) -> text.Matrix:
    """The matrix with the first row negated."""
    return edited(rows, 0, tuple(-number for number in rows[0]))


def moved_vertex(simplex: Simplex) -> Simplex:
    """The class with the last coordinate of the last vertex one more."""
    return edited(simplex, 4, more(simplex[4], 3))


def listed_twice(atlas: Atlas) -> Atlas:
    """Entry 2 once more, as entry 3."""
    return replace(atlas, entries=atlas.entries + (replace(atlas.entries[2], number=3),))


def carried_start(atlas: Atlas) -> Atlas:
    """Entry 0 has the image of its classes under a shear."""
    shear = edited(lattice.identity(4), 0, (1, 1, 0, 0))
    return with_entry(atlas, 0, listed=half(lattice.image(shear, atlas.entries[0].simplices)))


def turned_origin(atlas: Atlas) -> Atlas:
    """The mark from which entry 1 came has an automorphism of entry 1 in the place of the identity."""
    minus_one = tuple(tuple(-number for number in row) for row in lattice.identity(4))
    return with_entry(atlas, 0, marks=edited(atlas.entries[0].marks, 0, Cross(1, minus_one)))


def from_facet(entry: int, facet: int) -> Change:
    """Another origin of entry 1."""
    return lambda atlas: with_entry(atlas, 1, origin=Origin(entry, facet))


def form(change: Callable[[text.Form], text.Form]) -> Change:
    """A change of the form."""
    return lambda atlas: with_entry(atlas, 1, form=change(atlas.entries[1].form))


PLANTED: dict[str, tuple[Change, tuple[int, str, int]]] = {
    "a class dropped": (listed(lambda s: edited(s, 3)), (1, "simplex", 11)),
    "a class doubled": (listed(lambda s: edited(s, 3, s[3], s[3])), (1, "simplex", 4)),
    "classes exchanged": (listed(lambda s: exchanged(s, 3, 9)), (1, "simplex", 4)),
    "a coordinate changed": (listed(lambda s: edited(s, 3, moved_vertex(s[3]))), (1, "simplex", 1)),
    "points exchanged": (listed(lambda s: edited(s, 3, exchanged(s[3], 1, 2))), (1, "simplex", 3)),
    "dependent points": (listed(lambda s: edited(s, 3, edited(s[3], 4, doubled(s[3][3])))), (1, "simplex", 3)),
    "a negative in the place of a class": (listed(lambda s: edited(s, 11, negative_of(s[11]))), (1, "simplex", 11)),
    "a negative beside its class": (listed(lambda s: s + (negative_of(s[11]),)), (1, "simplex", 12)),
    "all negatives": (listed(lambda s: tuple(sorted(map(negative_of, s)))), (1, "simplex", 0)),
    "all classes": (lambda atlas: with_entry(atlas, 1, listed=atlas.entries[1].simplices), (1, "simplex", 23)),
    "a regulator dropped": (regulators(lambda r: edited(r, 6)), (1, "regulator", 6)),
    "regulators exchanged": (regulators(lambda r: exchanged(r, 6, 7)), (1, "regulator", 6)),
    "a regulator that is none": (
        regulators(lambda r: edited(r, 6, replace(r[6], normal=more(r[6].normal, 0)))),
        (1, "regulator", 6),
    ),
    "a regulator doubled": (
        regulators(lambda r: edited(r, 6, replace(r[6], normal=doubled(r[6].normal)))),
        (1, "regulator", 6),
    ),
    "a wall form doubled": (verdict(0, lambda v: Wall(doubled(v.form))), (1, "regulator", 0)),
    "a number of a wall form": (verdict(0, lambda v: Wall(more(v.form, 1))), (1, "regulator", 0)),
    "a wall form negated": (verdict(0, lambda v: Wall(tuple(-n for n in v.form))), (1, "regulator", 0)),
    "the wall form of another facet": (verdict(0, lambda v: Wall((5, 2, -4, -4, 4, -2, -4, 5, -2, 6))), (1, "regulator", 0)),
    "a facet told redundant": (verdict(0, lambda v: Combination(1, ((1, 1),))), (1, "regulator", 0)),
    "a redundant one told a facet": (verdict(4, lambda v: Wall((3, 0, -2, -2, 3, -2, -2, 4, -2, 4))), (1, "regulator", 4)),
    "a scale": (verdict(4, lambda v: replace(v, scale=2)), (1, "regulator", 4)),
    "a coefficient": (verdict(4, lambda v: replace(v, terms=((0, 2), (13, 1)))), (1, "regulator", 4)),
    "a term of itself": (verdict(4, lambda v: replace(v, terms=((4, 1),))), (1, "regulator", 4)),
    "a term of no regulator": (verdict(4, lambda v: replace(v, terms=((0, 1), (19, 1)))), (1, "regulator", 4)),
    "terms exchanged": (verdict(4, lambda v: replace(v, terms=exchanged(v.terms, 0, 1))), (1, "regulator", 4)),
    "a combination doubled": (verdict(4, lambda v: Combination(2, ((0, 2), (13, 2)))), (1, "regulator", 4)),
    "the form doubled": (form(doubled), (1, "form", 0)),
    "a number of the form": (form(lambda f: more(f, 2)), (1, "form", 0)),
    "a mark of another entry": (mark(2, lambda m: replace(m, target=2)), (1, "mark", 2)),
    "a mark of no entry": (mark(2, lambda m: replace(m, target=7)), (1, "mark", 2)),
    "a row of a matrix negated": (mark(0, lambda m: replace(m, matrix=negated(m.matrix))), (1, "mark", 0)),
    "a matrix doubled": (mark(0, lambda m: replace(m, matrix=tuple(map(doubled, m.matrix)))), (1, "mark", 0)),
    "marks exchanged": (marks(lambda m: exchanged(m, 0, 1)), (1, "mark", 0)),
    "a mark dropped": (marks(lambda m: edited(m, 9)), (1, "mark", 9)),
    "a wide mark": (mark(3, lambda m: Wide(401, lattice.principal(4)[0])), (1, "mark", 3)),
    "a heavy mark": (mark(3, lambda m: Heavy(1 << 112)), (1, "mark", 3)),
    "an origin at another facet": (from_facet(0, 1), (1, "origin", 0)),
    "an origin at no facet": (from_facet(0, 10), (1, "origin", 0)),
    "an origin in a later entry": (from_facet(2, 0), (1, "origin", 0)),
    "a later entry without an origin": (lambda atlas: with_entry(atlas, 1, origin=None), (1, "origin", 0)),
    "a first entry with an origin": (lambda atlas: with_entry(atlas, 0, origin=Origin(0, 0)), (0, "origin", 0)),
    "an origin by an automorphism": (turned_origin, (1, "origin", 0)),
    "a first entry that isn't principal": (carried_start, (0, "simplex", 0)),
    "an entry listed twice": (listed_twice, (3, "entry", 3)),
}

BROKEN: dict[str, Callable[[list[str]], list[str]]] = {
    "a line dropped": lambda lines: lines[:9] + lines[10:],
    "a line doubled": lambda lines: lines[:9] + lines[8:],
    "no end": lambda lines: lines[:-1],
    "a tail": lambda lines: lines + ["end\n"],
    "no last line feed": lambda lines: lines[:-1] + ["end"],
    "a carriage return": lambda lines: ["ltypes 2\r\n"] + lines[1:],
    "two spaces": lambda lines: ["ltypes  2\n"] + lines[1:],
    "an unknown version": lambda lines: ["ltypes 3\n"] + lines[1:],
    "a number with a plus": lambda lines: [lines[0], "dimension +4\n"] + lines[2:],
    "an entry renumbered": lambda lines: [line.replace("entry 1 ", "entry 2 ") for line in lines],
}


class Texts(unittest.TestCase):
    """Reading and writing."""

    def test_written_as_read(self) -> None:
        for dimension in (2, 3, 4):
            for version in text.VERSIONS:
                lines = lines_of(dimension, version)
                self.assertEqual(lines[0], f"ltypes {version}\n")
                self.assertEqual(list(text.written(text.read(lines))), lines)

    def test_bytes(self) -> None:
        for version, counts in ((1, [240, 638, 7166]), (2, [228, 566, 5722])):
            self.assertEqual([len("".join(lines_of(dimension, version))) for dimension in (2, 3, 4)], counts)

    def test_entries_one_by_one(self) -> None:
        self.assertEqual(tuple(text.read_entries(lines_of(4))), stored(4).entries)

    def test_half_lists_are_completed(self) -> None:
        for dimension in (2, 3, 4):
            for entry, whole in zip(stored(dimension).entries, stored(dimension, 1).entries):
                self.assertEqual(2 * len(entry.listed), len(entry.simplices))
                self.assertEqual(entry.simplices, whole.simplices)
                self.assertEqual(whole.simplices, whole.listed)
        self.assertEqual(stored(4).entries[0].simplices, lattice.principal(4))

    def test_versions_are_converted(self) -> None:
        for dimension in (2, 3, 4):
            first, second = stored(dimension, 1), stored(dimension)
            self.assertEqual(list(text.written(converting.reopened(first), 2)), lines_of(dimension))
            self.assertEqual(list(text.written(converting.reopened(second), 1)), lines_of(dimension, 1))
        stuck = marks(lambda m: (Wide(401, lattice.principal(4)[0]), Heavy(1 << 112)) + m[2:])(stored(4, 1))
        crossed = converting.reopened(stuck).entries[1].marks
        self.assertEqual(crossed, (text.Open(), text.Open()) + stored(4).entries[1].marks[2:])

    def test_broken_texts(self) -> None:
        for name, change in BROKEN.items():
            with self.subTest(name), self.assertRaises(text.TextError):
                text.read(change(lines_of(4)))


class Rechecks(unittest.TestCase):
    """The second checker."""

    def test_no_fault(self) -> None:
        for dimension in (2, 3, 4):
            for version in text.VERSIONS:
                self.assertEqual(faults(stored(dimension, version)), [])

    def test_planted_faults(self) -> None:
        for name, (change, expected) in PLANTED.items():
            with self.subTest(name):
                self.assertIn(expected, faults(change(stored(4))))

    def test_first_versions_list_all_classes(self) -> None:
        """A text of version 1 with half of the classes, and one of version 2 with all of them."""
        half_listed = with_entry(stored(4, 1), 1, listed=stored(4).entries[1].listed)
        self.assertIn((1, "simplex", 12), faults(half_listed))
        whole = ["ltypes 2\n"] + lines_of(4, 1)[1:]
        self.assertIn((0, "simplex", 23), faults(text.read(whole)))

    def test_open_marks_are_no_faults(self) -> None:
        self.assertEqual(faults(mark(2, lambda _: text.Open())(stored(4))), [])

    def test_an_equivalent_entry(self) -> None:
        """The image of an entry under another matrix is found by the exact trial."""
        atlas = stored(4)
        shear = edited(lattice.identity(4), 1, (0, 1, 0, -1))
        moved: Entry = replace(atlas.entries[2], number=3, listed=half(lattice.image(shear, atlas.entries[2].simplices)))
        self.assertIn((3, "entry", 3), faults(replace(atlas, entries=atlas.entries + (moved,))))


def reordered(atlas: Atlas, seed: int) -> Atlas:
    """The atlas of the reordered text."""
    return text.read(blocks.written(ordering.reordered(blocks.read(text.written(atlas)), seed)))


class Orders(unittest.TestCase):
    """Other orders of the entries."""

    def test_same_atlas(self) -> None:
        atlas = reordered(stored(4), 5)
        self.assertEqual(faults(atlas), [])
        self.assertEqual(reordered(stored(4), 5), atlas)

    def test_origins_come_first(self) -> None:
        """Of an entry with five branches; certificates play no part in it."""
        first, second, _ = stored(4).entries
        branches = tuple(replace(second, number=k, origin=Origin(0 if k < 4 else 1, k)) for k in range(1, 7))
        found = set()
        for seed in range(20):
            atlas = reordered(Atlas(2, 4, (first,) + branches), seed)
            self.assertEqual([entry.number for entry in atlas.entries], list(range(7)))
            self.assertTrue(all(e.origin.entry < e.number for e in atlas.entries[1:] if e.origin))
            found.add(tuple(e.origin for e in atlas.entries))
        self.assertGreater(len(found), 5)


class Blocks(unittest.TestCase):
    """Texts as blocks of lines."""

    def test_same_text(self) -> None:
        for dimension in (2, 3, 4):
            for version in text.VERSIONS:
                with self.subTest(dimension=dimension, version=version):
                    lines = lines_of(dimension, version)
                    self.assertEqual(list(blocks.written(blocks.read(lines))), lines)

    def test_short_texts(self) -> None:
        """The line behind the last is named."""
        lines = lines_of(4)
        for count in range(len(lines)):
            with self.subTest(count), self.assertRaises(text.TextError) as raised:
                blocks.read(lines[:count])
            self.assertEqual(raised.exception.line, count + 1)

    def test_pruned(self) -> None:
        """The three types of dimension 4 hang together by two facets."""
        whole = stored(4)
        atlas = text.read(blocks.written(pruning.pruned(blocks.read(text.written(whole)))))
        self.assertEqual(faults(atlas), [])
        self.assertEqual([(e, f) for e, f, _ in atlas.crossings()], [(e.origin.entry, e.origin.facet) for e in whole.entries[1:] if e.origin])
        self.assertEqual([replace(entry, marks=()) for entry in atlas.entries], [replace(entry, marks=()) for entry in whole.entries])


class Figures(unittest.TestCase):
    """Tables, exports and pictures."""

    def test_tables(self) -> None:
        groups = [[int(line.split()[-1]) for line in list(tables.table(stored(d)))[1:]] for d in (2, 3, 4)]
        self.assertEqual(groups, [[12], [48], [240, 24, 72]])

    def test_faces_of_the_plane(self) -> None:
        self.assertEqual(lattice.face_numbers(lattice.principal(2)), [1, 3, 2])

    def test_exports(self) -> None:
        for name, writer in exporting.WRITERS.items():
            with self.subTest(name):
                self.assertTrue("".join(writer(stored(4))).endswith("\n"))
        read = json.loads("".join(exporting.to_json(stored(4))))
        self.assertEqual([len(entry["regulators"]) for entry in read["entries"]], [10, 19, 19])

    def test_pictures(self) -> None:
        for name, dimension in (("flip", 2), ("cone", 2), ("graph", 4)):
            with self.subTest(name):
                drawn = "".join(pictures.PICTURES[name](stored(dimension)))
                self.assertEqual(drawn, "".join(pictures.PICTURES[name](stored(dimension))))
                self.assertTrue(xml.fromstring(drawn).tag.endswith("svg"))


if __name__ == "__main__":
    unittest.main()
