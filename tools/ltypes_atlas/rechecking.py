"""A second checker of every certificate of an atlas, from docs/DEFINITIONS.md alone.

It shares no code with the program, and its own answer isn't proved.
"""

from __future__ import annotations

from collections import defaultdict
from dataclasses import dataclass
from math import factorial
from typing import Iterator, Sequence, Union

from ltypes_atlas import lattice
from ltypes_atlas.lattice import Invariant, NotClosed, Pair, Shape, dot
from ltypes_atlas.text import (
    Atlas, Combination, Cross, Entry, Form, Heavy, Matrix, Normal, Origin, Regulator, Simplex, Wall, Wide, comes_first, negative_of,
    numbers_of_form,
)

NUMBER_LIMIT = 1 << 62


@dataclass(frozen=True)
class Fault:
    """What is wrong, with the entry, the list it stands in, and the row in that list, from 0."""

    entry: int
    part: str
    row: int
    message: str

    def __str__(self) -> str:
        return f"entry {self.entry} {self.part} {self.row}: {self.message}"


@dataclass
class Summary:
    """What was tested."""

    entries: int = 0
    regulators: int = 0
    facets: int = 0
    crossed: int = 0
    pairs: int = 0
    left_open: int = 0

    def __str__(self) -> str:
        return (
            f"rechecked entries {self.entries} regulators {self.regulators} facets {self.facets} crossed {self.crossed}\n"
            f"pairs {self.pairs}, of which the invariants leave {self.left_open} open; each of these was tried exactly"
        )


class Recheck:
    """Tests an atlas. The faults come by entry; the summary is whole when all have come.

    Pairs are formed of the entries whose classes are a triangulation.
    """

    def __init__(self, atlas: Atlas) -> None:
        self.atlas = atlas
        self.dimension = atlas.dimension
        self.summary = Summary()
        self.triangulations: list[Entry] = []
        self.members = {entry.number: frozenset(entry.simplices) for entry in atlas.entries}

    def faults(self) -> Iterator[Fault]:
        """All faults."""
        for entry in self.atlas.entries:
            self.summary.entries += 1
            yield from self.entry_faults(entry)
        yield from self.twin_faults()

    # ---- one entry

    def entry_faults(self, entry: Entry) -> Iterator[Fault]:
        """The faults of one entry; the cone and the marks are tested where the classes are a triangulation."""
        yield from self.origin_faults(entry)
        broken = list(self.triangulation_faults(entry))
        yield from broken
        if broken:
            yield Fault(entry.number, "regulator", 0, "not tested, nor anything behind it: the classes are no triangulation")
            return
        self.triangulations.append(entry)
        found = lattice.pairs_by_regulator(entry.simplices)
        yield from self.cone_faults(entry, sorted(found))
        yield from self.mark_faults(entry, found)

    def origin_faults(self, entry: Entry) -> Iterator[Fault]:
        """The first entry is the principal type, and each other one came over an earlier entry's facet by the identity."""
        if entry.number == 0:
            if entry.origin is not None:
                yield Fault(0, "origin", 0, "the first entry has an origin")
            if entry.simplices != lattice.principal(self.dimension):
                yield Fault(0, "simplex", 0, "the classes aren't those of the principal triangulation, in order")
            return
        message = self.wrong_origin(entry.number, entry.origin)
        if message:
            yield Fault(entry.number, "origin", 0, message)

    def wrong_origin(self, number: int, origin: Union[Origin, None]) -> str:
        """What is wrong with the origin of a later entry, or nothing."""
        if origin is None:
            return "a later entry has no origin"
        if origin.entry >= number:
            return f"entry {origin.entry} isn't an earlier one"
        marks = self.atlas.entries[origin.entry].marks
        if origin.facet >= len(marks):
            return f"entry {origin.entry} has no facet {origin.facet}"
        if marks[origin.facet] != Cross(number, lattice.identity(self.dimension)):
            return f"mark {origin.facet} of entry {origin.entry} doesn't name this entry with the identity"
        return ""

    def triangulation_faults(self, entry: Entry) -> Iterator[Fault]:
        """The listed classes ascend and are simplices within the span limit, the first of each pair where half of them are listed; all
        classes are closed under facets, of total volume d!."""
        wrong = [fault for row in range(len(entry.listed)) for fault in self.class_faults(entry, row)]
        yield from wrong
        if wrong:
            return
        try:
            for _ in lattice.pairs(entry.simplices):
                pass
        except NotClosed as error:
            yield Fault(entry.number, "simplex", row_of(entry, error.member), str(error))
        total = sum(lattice.volume(simplex) for simplex in entry.simplices)
        if total != factorial(self.dimension):
            yield Fault(entry.number, "simplex", len(entry.listed), f"the total volume is {total} / {self.dimension}!")

    def class_faults(self, entry: Entry, row: int) -> Iterator[Fault]:
        """One class: ascending points from 0, independent, behind the class before it, and the first of its pair in version 2."""
        simplex = entry.listed[row]
        if any(simplex[0]) or any(a >= b for a, b in zip(simplex, simplex[1:])):
            yield Fault(entry.number, "simplex", row, "the points don't ascend from 0")
        elif lattice.volume(simplex) == 0:
            yield Fault(entry.number, "simplex", row, "the points are dependent")
        if row and entry.listed[row - 1] >= simplex:
            yield Fault(entry.number, "simplex", row, "the classes don't ascend")
        if entry.version == 2 and not comes_first(simplex):
            yield Fault(entry.number, "simplex", row, "the class of its negatives comes first")
        if lattice.is_wide(simplex):
            yield Fault(entry.number, "simplex", row, "the span is above the limit")

    # ---- the cone

    def cone_faults(self, entry: Entry, expected: Sequence[Normal]) -> Iterator[Fault]:
        """Exactly the regulators in order, a right certificate for each, the weight and the form."""
        listed = entry.normals()
        if listed != list(expected):
            row = next((k for k, (a, b) in enumerate(zip(listed, expected)) if a != b), min(len(listed), len(expected)))
            yield Fault(entry.number, "regulator", row, "the list isn't that of the regulators from here on")
            return
        for row, regulator in enumerate(entry.regulators):
            self.summary.regulators += 1
            message = self.wrong_certificate(listed, row, regulator)
            if message:
                yield Fault(entry.number, "regulator", row, message)
        if lattice.weight(listed, self.dimension) >= lattice.WEIGHT_LIMIT:
            yield Fault(entry.number, "regulator", len(listed), "the regulators are too heavy")
        if entry.form != self.sum_of_walls(entry):
            yield Fault(entry.number, "form", 0, "it isn't the primitive sum of the wall forms")

    def wrong_certificate(self, normals: Sequence[Normal], row: int, regulator: Regulator) -> str:
        """What is wrong with the certificate of a row, or nothing."""
        if isinstance(regulator.verdict, Wall):
            return wrong_wall(normals, row, regulator.verdict.form)
        return wrong_combination(normals, row, regulator.verdict, numbers_of_form(self.dimension))

    def sum_of_walls(self, entry: Entry) -> Form:
        """The primitive form of the sum of the wall forms."""
        forms = [form for _, _, form in entry.facets()]
        return lattice.primitive([sum(column) for column in zip(*forms)]) if forms else ()

    # ---- the marks

    def mark_faults(self, entry: Entry, found: dict[Normal, list[Pair]]) -> Iterator[Fault]:
        """One mark for each facet, each right where it tells something."""
        normals = [normal for _, normal, _ in entry.facets()]
        if len(normals) != len(entry.marks):
            yield Fault(entry.number, "mark", min(len(normals), len(entry.marks)), "there isn't one mark for each facet")
            return
        for row, (normal, mark) in enumerate(zip(normals, entry.marks)):
            self.summary.facets += 1
            if normal not in found:
                yield Fault(entry.number, "mark", row, "its facet is no regulator")
                continue
            beyond = lattice.flip(entry.simplices, found[normal])
            message = ""
            if isinstance(mark, Cross):
                self.summary.crossed += 1
                message = self.wrong_cross(beyond, mark)
            elif isinstance(mark, Wide):
                message = wrong_wide(beyond, mark)
            elif isinstance(mark, Heavy):
                message = self.wrong_heavy(beyond, mark)
            if message:
                yield Fault(entry.number, "mark", row, message)

    def wrong_cross(self, beyond: Sequence[Simplex], mark: Cross) -> str:
        """The flip, carried by the matrix, is the named entry's list."""
        if mark.target not in self.members:
            return f"there is no entry {mark.target}"
        if abs(lattice.determinant(mark.matrix)) != 1:
            return "the matrix isn't unimodular"
        if lattice.carries(mark.matrix, beyond, self.members[mark.target]):
            return ""
        return f"the matrix doesn't carry the flip onto entry {mark.target}"

    def wrong_heavy(self, beyond: Sequence[Simplex], mark: Heavy) -> str:
        """The regulators of the flip have that weight, at the limit or above it."""
        weight = lattice.weight(lattice.pairs_by_regulator(beyond), self.dimension)
        return "" if weight == mark.weight >= lattice.WEIGHT_LIMIT else f"the weight beyond the facet is {weight}"

    # ---- pairs of entries

    def twin_faults(self) -> Iterator[Fault]:
        """No two entries are equivalent: by invariants, and exactly where these leave it open."""
        shapes: dict[Invariant, list[tuple[int, Shape]]] = defaultdict(list)
        count = len(self.triangulations)
        self.summary.pairs = count * (count - 1) // 2
        for entry in self.triangulations:
            shape = Shape(entry.simplices)
            for number, other in shapes[shape.invariant]:
                self.summary.left_open += 1
                matrix: Union[Matrix, None] = next(lattice.carrying(shape, other), None)
                if matrix is not None:
                    yield Fault(entry.number, "entry", entry.number, f"it is equivalent to entry {number}, by {matrix}")
            shapes[shape.invariant].append((entry.number, shape))


def row_of(entry: Entry, member: int) -> int:
    """The row of a class, or else that of its negative."""
    simplex = entry.simplices[member]
    return entry.listed.index(simplex if simplex in entry.listed else negative_of(simplex))


def wrong_wall(normals: Sequence[Normal], row: int, form: Form) -> str:
    """What is wrong with a wall form, or nothing."""
    if any(abs(number) >= NUMBER_LIMIT for number in form):
        return "a number of the wall form is too large"
    if lattice.content(form) != 1:
        return "the wall form isn't primitive"
    for place, normal in enumerate(normals):
        value = dot(normal, form)
        if place == row and value != 0:
            return "the wall form isn't on the facet"
        if place != row and value <= 0:
            return f"the wall form isn't on the positive side of regulator {place}"
    return ""


def wrong_combination(normals: Sequence[Normal], row: int, verdict: Combination, most: int) -> str:
    """What is wrong with a combination of at most so many terms, or nothing."""
    places = [place for place, _ in verdict.terms]
    numbers = [verdict.scale] + [number for _, number in verdict.terms]
    if len(places) > most:
        return "there are too many terms"
    if places != sorted(set(places)) or row in places or any(place >= len(normals) for place in places):
        return "the places of the terms aren't ascending places of others"
    if any(not 0 < number < NUMBER_LIMIT for number in numbers) or lattice.content(numbers) != 1:
        return "the scale and the coefficients aren't positive, below 2^62 and without a common divisor"
    total = [0] * len(normals[row])
    for place, number in verdict.terms:
        total = [a + number * b for a, b in zip(total, normals[place])]
    if total != [verdict.scale * number for number in normals[row]]:
        return "the terms don't sum to the scale times the regulator"
    return ""


def wrong_wide(beyond: Sequence[Simplex], mark: Wide) -> str:
    """The simplex is the first of the flip with a span above the limit."""
    wide = next(filter(lattice.is_wide, beyond), None)
    if wide != mark.simplex or wide is None or lattice.span(wide) != mark.span:
        return "it isn't the first simplex of the flip above the span limit"
    return ""
