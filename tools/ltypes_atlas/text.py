"""The text of an atlas as values: types, a reader and a writer.

The text is described in docs/FORMATS.md. All numbers are whole numbers of any size. A form and a normal have
n = d (d + 1) / 2 numbers, a simplex d + 1 points of d coordinates, a matrix d rows of d numbers.
A text of version 2 lists the first class of each pair S, -S, one of version 1 lists all classes. An `Entry` holds the classes that
its text lists, and all of them besides.
"""

from __future__ import annotations

import re
from dataclasses import dataclass
from functools import cached_property
from typing import Callable, Iterable, Iterator, TypeVar, Union

Point = tuple[int, ...]
Simplex = tuple[Point, ...]
Form = tuple[int, ...]
Normal = tuple[int, ...]
Matrix = tuple[tuple[int, ...], ...]

VERSIONS = (1, 2)
NUMBER = re.compile(r"-?[1-9][0-9]*|0")
Value = TypeVar("Value")


class TextError(Exception):
    """A line, from 1, that doesn't read as the text of an atlas."""

    def __init__(self, line: int, message: str) -> None:
        super().__init__(f"line {line}: {message}")
        self.line = line


@dataclass(frozen=True)
class Wall:
    """The certificate of a facet: a form at which its normal is 0 and all others are positive."""

    form: Form


@dataclass(frozen=True)
class Combination:
    """The certificate of another regulator: `scale` times it is the sum of the terms (place, coefficient)."""

    scale: int
    terms: tuple[tuple[int, int], ...]


@dataclass(frozen=True)
class Regulator:
    """A regulator with its certificate."""

    normal: Normal
    verdict: Union[Wall, Combination]


@dataclass(frozen=True)
class Cross:
    """A mark: the matrix carries the triangulation beyond the facet onto the entry `target`."""

    target: int
    matrix: Matrix


@dataclass(frozen=True)
class Wide:
    """A mark: the triangulation beyond has a simplex with a span above the limit."""

    span: int
    simplex: Simplex


@dataclass(frozen=True)
class Heavy:
    """A mark: the regulators of the triangulation beyond are too heavy."""

    weight: int


@dataclass(frozen=True)
class Open:
    """A mark: not settled."""


Mark = Union[Cross, Wide, Heavy, Open]


@dataclass(frozen=True)
class Origin:
    """The entry and the facet, both from 0, across which an entry was found."""

    entry: int
    facet: int


@dataclass(frozen=True)
class Entry:
    """A type: its classes of simplices, its regulators with certificates, a form inside its cone, and its marks.

    `listed` are the classes as a text of the version lists them.
    """

    version: int
    number: int
    origin: Union[Origin, None]
    listed: tuple[Simplex, ...]
    regulators: tuple[Regulator, ...]
    form: Form
    marks: tuple[Mark, ...]

    @cached_property
    def simplices(self) -> tuple[Simplex, ...]:
        """All classes: those of version 2 and their negatives, in ascending order."""
        return self.listed if self.version == 1 else completed(self.listed)

    def listed_in(self, version: int) -> tuple[Simplex, ...]:
        """The classes as a text of a version lists them."""
        if version == self.version:
            return self.listed
        return self.simplices if version == 1 else half(self.simplices)

    def facets(self) -> Iterator[tuple[int, Normal, Form]]:
        """The rows of the facets in order, each with its normal and its wall form."""
        for row, regulator in enumerate(self.regulators):
            if isinstance(regulator.verdict, Wall):
                yield row, regulator.normal, regulator.verdict.form

    def normals(self) -> list[Normal]:
        """The normals of all rows."""
        return [regulator.normal for regulator in self.regulators]


@dataclass(frozen=True)
class Atlas:
    """The atlas of a dimension. `version` is that of the text from which it came."""

    version: int
    dimension: int
    entries: tuple[Entry, ...]

    def crossings(self) -> Iterator[tuple[int, int, Cross]]:
        """The crossed marks by entry and facet."""
        for entry in self.entries:
            for facet, mark in enumerate(entry.marks):
                if isinstance(mark, Cross):
                    yield entry.number, facet, mark


def numbers_of_form(dimension: int) -> int:
    """The number of coefficients of a form."""
    return dimension * (dimension + 1) // 2


def class_of(points: Iterable[Point]) -> Simplex:
    """The class of a simplex: its points in ascending order, less the first."""
    ordered = sorted(points)
    first = ordered[0]
    return tuple(tuple(a - b for a, b in zip(point, first)) for point in ordered)


def negative_of(simplex: Simplex) -> Simplex:
    """The class of the simplex reflected at 0."""
    return class_of(tuple(-a for a in point) for point in simplex)


def comes_first(simplex: Simplex) -> bool:
    """Whether a class comes before its negative."""
    return simplex < negative_of(simplex)


def half(simplices: Iterable[Simplex]) -> tuple[Simplex, ...]:
    """The classes that come before their negatives."""
    return tuple(filter(comes_first, simplices))


def completed(listed: tuple[Simplex, ...]) -> tuple[Simplex, ...]:
    """The classes and their negatives."""
    return tuple(sorted(listed + tuple(map(negative_of, listed))))


def grouped(numbers: tuple[int, ...], size: int) -> tuple[tuple[int, ...], ...]:
    """The numbers in groups of `size`."""
    return tuple(numbers[i : i + size] for i in range(0, len(numbers), size))


class Cursor:
    """The words of one line, taken from the left."""

    def __init__(self, number: int, line: str) -> None:
        self.number = number
        self.words = line.split(" ")
        self.place = 0

    def fail(self, message: str) -> TextError:
        """The error of this line."""
        return TextError(self.number, message)

    def word(self) -> str:
        """The next word."""
        if self.place == len(self.words):
            raise self.fail("a word is missing")
        self.place += 1
        return self.words[self.place - 1]

    def expect(self, *choices: str) -> str:
        """The next word, which is one of the choices."""
        word = self.word()
        if word not in choices:
            raise self.fail(f"{word!r} stands where {' or '.join(choices)} is wanted")
        return word

    def number_word(self) -> int:
        """The next word as a number."""
        word = self.word()
        if not NUMBER.fullmatch(word):
            raise self.fail(f"{word!r} is no number")
        return int(word)

    def count(self) -> int:
        """The next word as a number of at least 0."""
        number = self.number_word()
        if number < 0:
            raise self.fail(f"{number} is negative")
        return number

    def numbers(self, count: int) -> tuple[int, ...]:
        """The next words as so many numbers."""
        return tuple(self.number_word() for _ in range(count))

    def end(self) -> None:
        """The line ends here."""
        if self.place < len(self.words):
            raise self.fail("there are too many words")


class Reader:
    """Reads a text line by line."""

    def __init__(self, lines: Iterable[str]) -> None:
        self.lines = iter(lines)
        self.number = 0
        self.version = 2
        self.dimension = 0

    def line(self) -> Cursor:
        """The next line."""
        self.number += 1
        text = next(self.lines, None)
        if text is None:
            raise TextError(self.number, "the text ends too early")
        if not text.endswith("\n"):
            raise TextError(self.number, "the line has no line feed")
        return Cursor(self.number, text[:-1])

    def header(self, word: str) -> int:
        """A line that is a word and a count."""
        cursor = self.line()
        cursor.expect(word)
        count = cursor.count()
        cursor.end()
        return count

    def listed(self, word: str, parse: Callable[[Cursor], Value]) -> tuple[Value, ...]:
        """A line with a word and a count, and so many lines of values."""
        values = []
        for _ in range(self.header(word)):
            cursor = self.line()
            values.append(parse(cursor))
            cursor.end()
        return tuple(values)

    def start(self) -> int:
        """The first three lines; the answer is the number of entries."""
        self.version = self.header("ltypes")
        if self.version not in VERSIONS:
            raise TextError(self.number, f"version {self.version} is unknown")
        self.dimension = self.header("dimension")
        if self.dimension < 1:
            raise TextError(self.number, "there is no such dimension")
        return self.header("entries")

    def simplex(self, cursor: Cursor) -> Simplex:
        """A simplex, point by point."""
        return grouped(cursor.numbers((self.dimension + 1) * self.dimension), self.dimension)

    def regulator(self, cursor: Cursor) -> Regulator:
        """A regulator with its certificate."""
        size = numbers_of_form(self.dimension)
        kind = cursor.expect("facet", "redundant")
        normal = cursor.numbers(size)
        if kind == "facet":
            cursor.expect("wall")
            return Regulator(normal, Wall(cursor.numbers(size)))
        cursor.expect("scale")
        scale = cursor.number_word()
        cursor.expect("terms")
        terms = tuple((cursor.count(), cursor.number_word()) for _ in range(cursor.count()))
        return Regulator(normal, Combination(scale, terms))

    def mark(self, cursor: Cursor) -> Mark:
        """What lies beyond a facet."""
        kind = cursor.expect("cross", "wide", "heavy", "open")
        if kind == "cross":
            return Cross(cursor.count(), grouped(cursor.numbers(self.dimension**2), self.dimension))
        if kind == "wide":
            return Wide(cursor.count(), self.simplex(cursor))
        return Heavy(cursor.count()) if kind == "heavy" else Open()

    def origin(self, number: int) -> Union[Origin, None]:
        """The first line of the entry with this number."""
        cursor = self.line()
        cursor.expect("entry")
        if cursor.count() != number:
            raise cursor.fail(f"entry {number} is wanted")
        kind = cursor.expect("start", "from")
        origin = Origin(cursor.count(), cursor.count()) if kind == "from" else None
        cursor.end()
        return origin

    def form(self) -> Form:
        """The line of the form of an entry."""
        cursor = self.line()
        cursor.expect("form")
        form = cursor.numbers(numbers_of_form(self.dimension))
        cursor.end()
        return form

    def entry(self, number: int) -> Entry:
        """The lines of the entry with this number."""
        origin = self.origin(number)
        simplices = self.listed("simplices", self.simplex)
        regulators = self.listed("regulators", self.regulator)
        form = self.form()
        return Entry(self.version, number, origin, simplices, regulators, form, self.listed("marks", self.mark))

    def finish(self) -> None:
        """The last line, behind which nothing stands."""
        cursor = self.line()
        cursor.expect("end")
        cursor.end()
        if next(self.lines, None) is not None:
            raise TextError(self.number + 1, "something stands behind the end")


def read_entries(lines: Iterable[str]) -> Iterator[Entry]:
    """The entries of a text, one after the other; a fault of the text is raised as `TextError` where it is met."""
    reader = Reader(lines)
    for number in range(reader.start()):
        yield reader.entry(number)
    reader.finish()


def read(lines: Iterable[str]) -> Atlas:
    """The atlas of a text."""
    reader = Reader(lines)
    entries = tuple(reader.entry(number) for number in range(reader.start()))
    reader.finish()
    return Atlas(reader.version, reader.dimension, entries)


def flat(rows: Iterable[Iterable[int]]) -> list[int]:
    """The numbers of the rows, one row after the other."""
    return [number for row in rows for number in row]


def spelt(*words: object) -> str:
    """A line of words and lists of numbers."""
    spellings = []
    for word in words:
        spellings += [str(part) for part in word] if isinstance(word, (list, tuple)) else [str(word)]
    return " ".join(spellings) + "\n"


def mark_line(mark: Mark) -> str:
    """The line of a mark."""
    if isinstance(mark, Cross):
        return spelt("cross", mark.target, flat(mark.matrix))
    if isinstance(mark, Wide):
        return spelt("wide", mark.span, flat(mark.simplex))
    return spelt("heavy", mark.weight) if isinstance(mark, Heavy) else spelt("open")


def regulator_line(regulator: Regulator) -> str:
    """The line of a regulator."""
    verdict = regulator.verdict
    if isinstance(verdict, Wall):
        return spelt("facet", regulator.normal, "wall", verdict.form)
    counted = ("terms", len(verdict.terms), flat(verdict.terms))
    return spelt("redundant", regulator.normal, "scale", verdict.scale, *counted)


def came_from(origin: Union[Origin, None]) -> tuple[object, ...]:
    """The words behind the number of an entry."""
    return ("start",) if origin is None else ("from", origin.entry, origin.facet)


def entry_lines(entry: Entry, version: int) -> Iterator[str]:
    """The lines of an entry in a version of the text."""
    yield spelt("entry", entry.number, *came_from(entry.origin))
    listed = entry.listed_in(version)
    yield spelt("simplices", len(listed))
    yield from (spelt(flat(simplex)) for simplex in listed)
    yield spelt("regulators", len(entry.regulators))
    yield from map(regulator_line, entry.regulators)
    yield spelt("form", entry.form)
    yield spelt("marks", len(entry.marks))
    yield from map(mark_line, entry.marks)


def written(atlas: Atlas, version: Union[int, None] = None) -> Iterator[str]:
    """The lines of the text of an atlas, in its own version or in the one that is named."""
    version = atlas.version if version is None else version
    yield spelt("ltypes", version)
    yield spelt("dimension", atlas.dimension)
    yield spelt("entries", len(atlas.entries))
    for entry in atlas.entries:
        yield from entry_lines(entry, version)
    yield spelt("end")
