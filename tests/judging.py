"""What `ltypes check D` and `ltypes convert D` have to answer to bytes, by docs/FORMATS.md alone: its grammar, its ranges and its order of
refusals.

The grammar below is strict and its own: it doesn't use the reader of tools/. The geometry is that of tools/ltypes_atlas, and so is the
text that `convert` writes once its input is judged right.
"""

from __future__ import annotations

import re
from dataclasses import dataclass, field
from functools import lru_cache
from itertools import permutations
from math import comb
from typing import Iterator, Optional, Sequence

from ltypes_atlas import converting, lattice, text
from ltypes_atlas.rechecking import wrong_combination, wrong_wall
from ltypes_atlas.text import Combination, Simplex, half

NATURAL = re.compile(rb"0|[1-9][0-9]*")
WHOLE = re.compile(rb"0|-?[1-9][0-9]*")
Classes = tuple[Simplex, ...]


class SyntaxFault(Exception):
    """No text begins with the lines up to this one."""


@dataclass
class Row:
    """A row of a cone: a wall form, or a combination."""

    normal: tuple[int, ...]
    wall: Optional[tuple[int, ...]] = None
    combination: Optional[Combination] = None


@dataclass
class Mark:
    """A mark; only a cross has a target and a matrix."""

    kind: bytes
    target: int = -1
    matrix: tuple[tuple[int, ...], ...] = ()


@dataclass
class Spelt:
    """An entry as it is spelt, and all of its classes once those that are listed are known to be right."""

    origin: Optional[tuple[int, int]]
    listed: Classes = ()
    classes: Classes = ()
    rows: list[Row] = field(default_factory=list)
    form: tuple[int, ...] = ()
    marks: list[Mark] = field(default_factory=list)

    def normals(self) -> list[tuple[int, ...]]:
        """The normals of the facets."""
        return [row.normal for row in self.rows if row.wall is not None]


@dataclass
class Answer:
    """What the program has to answer: its status, and the line of standard output or standard error, or the whole text of an atlas."""

    status: int
    line: str

    def kind(self) -> str:
        """The first line without its numbers."""
        return re.sub(r" -?[0-9]+", "", self.line.partition("\n")[0])

    def __str__(self) -> str:
        return f"status {self.status}, {self.line[:300]!r}"


# ---- the grammar


class Words:
    """The words of one line, taken from the left; a word that can't come is a fault of the line."""

    def __init__(self, line: bytes) -> None:
        self.words = line.split(b" ")
        self.place = 0

    def take(self) -> bytes:
        """The next word."""
        if self.place == len(self.words):
            raise SyntaxFault
        self.place += 1
        return self.words[self.place - 1]

    def label(self, word: bytes) -> None:
        """The next word is this one."""
        if self.take() != word:
            raise SyntaxFault

    def natural(self, low: int, high: int) -> int:
        """A number from low to high."""
        word = self.take()
        if not NATURAL.fullmatch(word) or len(word) > 60 or not low <= int(word) <= high:
            raise SyntaxFault
        return int(word)

    def whole(self, below: int) -> int:
        """A number below the bound in absolute value."""
        word = self.take()
        if not WHOLE.fullmatch(word) or len(word) > 60 or abs(int(word)) >= below:
            raise SyntaxFault
        return int(word)

    def wholes(self, count: int, below: int) -> tuple[int, ...]:
        """So many numbers."""
        return tuple(self.whole(below) for _ in range(count))

    def end(self) -> None:
        """No word is left."""
        if self.place < len(self.words):
            raise SyntaxFault


def rows_of(numbers: Sequence[int], size: int) -> tuple[tuple[int, ...], ...]:
    """The numbers in rows of the size."""
    return tuple(tuple(numbers[k : k + size]) for k in range(0, len(numbers), size))


class Grammar:
    """Takes the lines of a text of a version one after the other."""

    def __init__(self, lines: Sequence[bytes], version: int) -> None:
        self.lines = lines
        self.version = version
        self.taken = 0
        self.dimension = 0
        self.size = 0

    def line(self) -> Words:
        """The next line; want of one is a fault behind all lines."""
        if self.taken == len(self.lines):
            self.taken += 1
            raise SyntaxFault
        self.taken += 1
        return Words(self.lines[self.taken - 1])

    def counted(self, label: bytes, low: int, high: int) -> int:
        """A line that is a word and a number in a range."""
        words = self.line()
        words.label(label)
        number = words.natural(low, high)
        words.end()
        return number

    def origin(self, number: int) -> Optional[tuple[int, int]]:
        """The first line of an entry."""
        words = self.line()
        words.label(b"entry")
        words.natural(number, number)
        words.label(b"from" if number else b"start")
        origin = (words.natural(0, 1000000), words.natural(0, 1 << 29)) if number else None
        words.end()
        return origin

    def simplex(self) -> Simplex:
        """The line of a class."""
        words = self.line()
        points = rows_of(words.wholes((self.dimension + 1) * self.dimension, lattice.span_limit(self.dimension) + 1), self.dimension)
        words.end()
        return points

    def row(self, count: int) -> Row:
        """The line of a regulator, which is one of so many."""
        words = self.line()
        kind = words.take()
        if kind not in (b"facet", b"redundant"):
            raise SyntaxFault
        row = Row(words.wholes(self.size, 1 << 56))
        if kind == b"facet":
            words.label(b"wall")
            row.wall = words.wholes(self.size, 1 << 62)
        else:
            row.combination = self.combination(words, count)
        words.end()
        return row

    def combination(self, words: Words, count: int) -> Combination:
        """The words of a combination."""
        words.label(b"scale")
        scale = words.whole(1 << 62)
        words.label(b"terms")
        number = words.natural(0, self.size)
        return Combination(scale, tuple((words.natural(0, count - 1), words.whole(1 << 62)) for _ in range(number)))

    def form(self) -> tuple[int, ...]:
        """The line of the form."""
        words = self.line()
        words.label(b"form")
        form = words.wholes(self.size, 1 << 92)
        words.end()
        return form

    def mark(self) -> Mark:
        """The line of a mark."""
        words = self.line()
        mark = Mark(words.take())
        if mark.kind == b"cross":
            mark.target = words.natural(0, 1000000)
            mark.matrix = rows_of(words.wholes(self.dimension**2, 1 << 62), self.dimension)
        elif mark.kind == b"wide":
            words.natural(1, 1 << 20)
            words.wholes((self.dimension + 1) * self.dimension, 2 * lattice.span_limit(self.dimension) + 1)
        elif mark.kind == b"heavy":
            words.natural(0, 1 << 120)
        elif mark.kind != b"open":
            raise SyntaxFault
        words.end()
        return mark

    def entry(self, number: int) -> Spelt:
        """The lines of an entry."""
        entry = Spelt(self.origin(number))
        entry.listed = tuple(self.simplex() for _ in range(self.counted(b"simplices", 1, 1 << 27)))
        count = self.counted(b"regulators", 1, 1 << 29)
        entry.rows = [self.row(count) for _ in range(count)]
        entry.form = self.form()
        facets = len(entry.normals())
        entry.marks = [self.mark() for _ in range(self.counted(b"marks", facets, facets))]
        return entry

    def text(self) -> list[Spelt]:
        """The lines of a whole text."""
        self.counted(b"ltypes", self.version, self.version)
        self.dimension = self.counted(b"dimension", 2, 6)
        self.size = comb(self.dimension + 1, 2)
        entries = [self.entry(number) for number in range(self.counted(b"entries", 1, 100001))]
        words = self.line()
        words.label(b"end")
        words.end()
        return entries


def parsed(data: bytes, version: int) -> tuple[int, list[Spelt]]:
    """The dimension and the entries; SyntaxFault with the line of the first fault."""
    *lines, tail = data.split(b"\n")
    grammar = Grammar(lines, version)
    try:
        entries = grammar.text()
    except SyntaxFault:
        raise SyntaxFault(grammar.taken) from None
    if grammar.taken < len(lines) or tail:
        raise SyntaxFault(grammar.taken + 1)
    return grammar.dimension, entries


# ---- triangulations, each computed once


@lru_cache(maxsize=4096)
def regulators(classes: Classes) -> dict[tuple[int, ...], list[lattice.Pair]]:
    """The regulators of a triangulation, each with its pairs."""
    return lattice.pairs_by_regulator(classes)


@lru_cache(maxsize=4096)
def beyond(classes: Classes, normal: tuple[int, ...]) -> Classes:
    """The triangulation across a facet."""
    return lattice.flip(classes, regulators(classes)[normal])


@lru_cache(maxsize=4096)
def shape(classes: Classes) -> lattice.Shape:
    """The lengths of a triangulation's edges."""
    return lattice.Shape(classes)


@lru_cache(maxsize=4096)
def first_matrix(source: Classes, target: Classes) -> Optional[tuple[tuple[int, ...], ...]]:
    """The first matrix by the target's member and the order of its vertices that carries the one onto the other."""
    if shape(source).invariant != shape(target).invariant:
        return None
    members = frozenset(target)
    for member in target:
        for order in permutations(range(len(member))):
            matrix = lattice.taking(source[0], member, order)
            if matrix is not None and lattice.carries(matrix, source, members):
                return matrix
    return None


def listed(classes: Classes, version: int) -> Classes:
    """The classes that a text lists: all of them, or in version 2 the one of each pair S, -S that comes first."""
    return classes if version == 1 else half(classes)


def is_wide(classes: Classes) -> bool:
    """Whether a class has a span above the limit."""
    return any(map(lattice.is_wide, classes))


# ---- the refusals


def cone_fault(dimension: int, entry: Spelt) -> Optional[int]:
    """The number R of `refused: cone K R`, or none."""
    normals = sorted(regulators(entry.classes))
    if lattice.weight(normals, dimension) >= lattice.WEIGHT_LIMIT:
        return len(normals) + 1
    for place, normal in enumerate(normals):
        if place >= len(entry.rows) or entry.rows[place].normal != normal:
            return place
        row = entry.rows[place]
        if row.wall is not None and wrong_wall(normals, place, row.wall):
            return place
        if row.combination is not None and wrong_combination(normals, place, row.combination, comb(dimension + 1, 2)):
            return place
    walls = [row.wall for row in entry.rows if row.wall is not None]
    right = lattice.primitive([sum(column) for column in zip(*walls)])
    return len(normals) if len(entry.rows) > len(normals) or entry.form != right else None


def has_origin(dimension: int, entries: Sequence[Spelt], number: int) -> bool:
    """Whether entry `number` names a facet of an earlier entry, whose mark names it by the identity."""
    parent, facet = entries[number].origin or (number, 0)
    if parent >= number or facet >= len(entries[parent].marks):
        return False
    return entries[parent].marks[facet] == Mark(b"cross", number, lattice.identity(dimension))


def entry_refusal(dimension: int, entries: Sequence[Spelt], number: int, version: int) -> Optional[str]:
    """Why an entry is refused: its origin, its classes or its cone. Its classes are known from here on."""
    entry = entries[number]
    if number == 0:
        entry.classes = lattice.principal(dimension)
        if entry.listed != listed(entry.classes, version):
            return "not principal"
    else:
        if not has_origin(dimension, entries, number):
            return f"origin {number}"
        parent, facet = entry.origin or (0, 0)
        entry.classes = beyond(entries[parent].classes, entries[parent].normals()[facet])
        if entry.listed != listed(entry.classes, version) or is_wide(entry.classes):
            return f"simplices {number}"
    row = cone_fault(dimension, entry)
    return None if row is None else f"cone {number} {row}"


def is_crossed(entries: Sequence[Spelt], number: int, facet: int) -> bool:
    """Whether the matrix of a mark carries the triangulation across its facet onto the named entry."""
    mark = entries[number].marks[facet]
    if mark.kind != b"cross":
        return True
    if mark.target >= len(entries):
        return False
    across = beyond(entries[number].classes, entries[number].normals()[facet])
    return not is_wide(across) and lattice.carries(mark.matrix, across, frozenset(entries[mark.target].classes))


def cross_refusal(entries: Sequence[Spelt]) -> Optional[str]:
    """The first wrong cross, by entry and facet."""
    for number, entry in enumerate(entries):
        for facet in range(len(entry.marks)):
            if not is_crossed(entries, number, facet):
                return f"cross {number} {facet}"
    return None


def twin_refusal(entries: Sequence[Spelt]) -> Optional[str]:
    """The first pair of equivalent entries, with the first matrix."""
    for i, entry in enumerate(entries):
        for j in range(i + 1, len(entries)):
            matrix = first_matrix(entries[j].classes, entry.classes)
            if matrix is not None:
                return " ".join(map(str, ["twin", i, j] + [number for row in matrix for number in row]))
    return None


def total_line(entries: Sequence[Spelt]) -> str:
    """The line of an accepted text."""
    marks = [mark.kind for entry in entries for mark in entry.marks]
    crossed = marks.count(b"cross")
    return f"ok types {len(entries)} facets {len(marks)} crossed {crossed} undecided {len(marks) - crossed}"


def tests(dimension: int, entries: Sequence[Spelt], found: int, version: int) -> Iterator[Optional[str]]:
    """The tests of a text in their order, each with its refusal, or none."""
    yield None if found == dimension else f"other dimension {found}"
    for number in range(len(entries)):
        yield entry_refusal(dimension, entries, number, version)
    yield cross_refusal(entries)
    yield twin_refusal(entries)


def input_limit(dimension: int) -> int:
    """The greatest number of bytes that are read."""
    return 1 << 26 if dimension <= 5 else 1 << 30


def judged(dimension: int, data: bytes, version: int = 2) -> Answer:
    """What `ltypes check D` has to answer, or would where it read texts of version 1."""
    if len(data) > input_limit(dimension):
        return Answer(3, "refused: too long")
    try:
        found, entries = parsed(data, version)
    except SyntaxFault as fault:
        return Answer(3, f"refused: syntax line {fault.args[0]}")
    told = next(filter(None, tests(dimension, entries, found, version)), None)
    return Answer(0, total_line(entries)) if told is None else Answer(3, f"refused: {told}")


def converted(dimension: int, data: bytes) -> Answer:
    """What `ltypes convert D` has to answer: the text in version 2, without its last line feed, or a refusal."""
    answer = judged(dimension, data, 1)
    if answer.status:
        return answer
    atlas = converting.reopened(text.read(data.decode("ascii").splitlines(keepends=True)))
    return Answer(0, "".join(text.written(atlas, 2)).removesuffix("\n"))
