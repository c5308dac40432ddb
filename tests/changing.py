"""Kinds of change that make false texts of right ones. Some leave a text right, and then it has to be accepted."""

from __future__ import annotations

import re
from dataclasses import replace
from functools import lru_cache
from random import Random
from typing import Any, Callable, TypeVar

from ltypes_atlas import lattice
from ltypes_atlas.text import (
    Atlas, Combination, Cross, Entry, Heavy, Mark, Matrix, Normal, Open, Origin, Regulator, Simplex, Wall, Wide,
    half, negative_of, numbers_of_form,
)

Bytes = Callable[[bytes, Random], bytes]
Values = Callable[[Atlas, Random], Atlas]
Item = TypeVar("Item")
NUMBER = re.compile(rb"-?[0-9]+")
BORDERS = (
    0, 1, 2, 5, 6, 7, 100, 101, 200, 201, 400, 401, 800, 801, 100001, 100002, 1000000, 1000001, 1 << 20, (1 << 20) + 1, 1 << 27,
    (1 << 27) + 1, 1 << 29, (1 << 29) + 1, (1 << 56) - 1, 1 << 56, (1 << 62) - 1, 1 << 62, (1 << 63) - 1, 1 << 63, 1 << 64,
    (1 << 92) - 1, 1 << 92, 1 << 120, (1 << 120) + 1, (1 << 127) - 1, 1 << 127, 1 << 128, 10**30, 10**60, 10**400,
)


# ---- bytes


def spliced(data: bytes, start: int, end: int, new: bytes) -> bytes:
    """The bytes with others from start to end."""
    return data[:start] + new + data[end:]


def lines_of(data: bytes) -> list[bytes]:
    """The lines, each with its line feed."""
    return data.splitlines(keepends=True)


def with_number(change: Callable[[int, Random], Any]) -> Bytes:
    """A change of one number; a line is drawn first, so that short lines are met as well."""

    def changed(data: bytes, random: Random) -> bytes:
        lines = lines_of(data)
        place = random.choice([k for k, line in enumerate(lines) if NUMBER.search(line)])
        found = random.choice(list(NUMBER.finditer(lines[place])))
        new = str(change(int(found[0]), random)).encode()
        lines[place] = spliced(lines[place], found.start(), found.end(), new)
        return b"".join(lines)

    return changed


def another_number(number: int, random: Random) -> int:
    """A number near by."""
    return number + random.choice([-2, -1, 1, 2, 10])


def border(_: int, random: Random) -> int:
    """A number at the border of a range."""
    return random.choice(BORDERS) * random.choice([1, 1, -1])


def odd_spelling(number: int, random: Random) -> str:
    """The number, spelt otherwise."""
    return random.choice([f"0{number}", f"+{number}", f"-0{abs(number)}", f"{number}.0", f"{number} ", f" {number}", "-0", "-", ""])


def huge_count(data: bytes, random: Random) -> bytes:
    """A count of a list that is at the border of a range."""
    found = random.choice(list(re.finditer(rb"^(entries|simplices|regulators|marks|dimension|ltypes) ([0-9]+)$", data, re.M)))
    return spliced(data, found.start(2), found.end(2), str(random.choice(BORDERS)).encode())


def line_dropped(data: bytes, random: Random) -> bytes:
    """A line less."""
    lines = lines_of(data)
    del lines[random.randrange(len(lines))]
    return b"".join(lines)


def line_doubled(data: bytes, random: Random) -> bytes:
    """A line twice."""
    lines = lines_of(data)
    place = random.randrange(len(lines))
    return b"".join(lines[: place + 1] + lines[place:])


def lines_exchanged(data: bytes, random: Random) -> bytes:
    """Two lines exchanged, which stand near each other in half of the texts."""
    lines = lines_of(data)
    i = random.randrange(len(lines))
    j = min(i + 1, len(lines) - 1) if random.random() < 0.5 else random.randrange(len(lines))
    lines[i], lines[j] = lines[j], lines[i]
    return b"".join(lines)


def byte_changed(data: bytes, random: Random) -> bytes:
    """Another byte."""
    place = random.randrange(len(data))
    return spliced(data, place, place + 1, bytes([random.choice([0, 9, 10, 13, 32, 45, 48, 49, 57, 127, 128, 255])]))


def byte_moved(data: bytes, random: Random) -> bytes:
    """A byte less or more."""
    place = random.randrange(len(data))
    return spliced(data, place, place + random.choice([0, 1]), random.choice([b"", b" ", b"\n", b"0", b"-", b"a"]))


def tail(data: bytes, random: Random) -> bytes:
    """Something behind the end."""
    return data + random.choice([b"\n", b" ", b"end\n", b"\0", b"entry 9 start\n", b"end", data])


def carriage_return(data: bytes, random: Random) -> bytes:
    """A carriage return before one line feed, or before each."""
    if random.random() < 0.3:
        return data.replace(b"\n", b"\r\n")
    lines = lines_of(data)
    place = random.randrange(len(lines))
    lines[place] = lines[place].replace(b"\n", b"\r\n")
    return b"".join(lines)


def cut(data: bytes, random: Random) -> bytes:
    """The front of a text."""
    return data[: random.randrange(len(data))]


def entry_renumbered(data: bytes, random: Random) -> bytes:
    """The line of an entry with other numbers."""
    found = random.choice(list(re.finditer(rb"^entry .*$", data, re.M)))
    new = random.choice([b"entry 0 start", b"entry 1 start", b"entry 1 from 0 0", b"entry 2 from 1 4", b"entry 0 from 0 0"])
    return spliced(data, found.start(), found.end(), new)


def another_version(data: bytes, random: Random) -> bytes:
    """Another first line."""
    first, _, rest = data.partition(b"\n")
    other = b"ltypes 1\n" if first == b"ltypes 2" else b"ltypes 2\n"
    return random.choice([other, b"ltypes 0\n", b"ltypes 3\n", first.replace(b"l", b"L", 1) + b"\n"]) + rest


def too_long(data: bytes, random: Random) -> bytes:
    """Bytes at the limit of 2^26 of dimensions 2 to 5, or one more."""
    return data + b" " * ((1 << 26) - len(data) + random.randrange(2))


# ---- values


def edited(values: tuple[Item, ...], place: int, *new: Item) -> tuple[Item, ...]:
    """The values with others in the place of one."""
    return values[:place] + new + values[place + 1 :]


def in_entry(change: Callable[[Entry, Random, Atlas], Entry]) -> Values:
    """A change of one entry."""

    def changed(atlas: Atlas, random: Random) -> Atlas:
        number = random.randrange(len(atlas.entries))
        return replace(atlas, entries=edited(atlas.entries, number, change(atlas.entries[number], random, atlas)))

    return changed


def in_cross(change: Callable[[Cross, Random, Atlas], Mark]) -> Values:
    """A change of one crossed mark."""

    def changed(entry: Entry, random: Random, atlas: Atlas) -> Entry:
        place, mark = random.choice([(k, mark) for k, mark in enumerate(entry.marks) if isinstance(mark, Cross)])
        return replace(entry, marks=edited(entry.marks, place, change(mark, random, atlas)))

    return in_entry(changed)


def in_row(change: Callable[[int, Entry, Random], Regulator]) -> Values:
    """A change of one row of a cone."""

    def changed(entry: Entry, random: Random, _: Atlas) -> Entry:
        row = random.randrange(len(entry.regulators))
        return replace(entry, regulators=edited(entry.regulators, row, change(row, entry, random)))

    return in_entry(changed)


def exchanged(values: tuple[Item, ...], random: Random) -> tuple[Item, ...]:
    """The values with two of them exchanged."""
    i, j = random.randrange(len(values)), random.randrange(len(values))
    return edited(edited(values, i, values[j]), j, values[i])


@lru_cache(maxsize=None)
def automorphisms(classes: tuple[Simplex, ...]) -> list[Matrix]:
    """The matrices that carry a triangulation onto itself."""
    shape = lattice.Shape(classes)
    return list(lattice.carrying(shape, shape))


def by_automorphism(mark: Cross, random: Random, atlas: Atlas) -> Mark:
    """The matrix times an automorphism of the entry that it names, which is right but in the mark of an origin."""
    return replace(mark, matrix=lattice.times(random.choice(automorphisms(atlas.entries[mark.target].simplices)), mark.matrix))


def wrong_matrix(mark: Cross, random: Random, _: Atlas) -> Mark:
    """The matrix with rows exchanged, negated, doubled or summed."""
    rows = mark.matrix
    i, j = random.sample(range(len(rows)), 2)
    new = random.choice([
        edited(edited(rows, i, rows[j]), j, rows[i]),
        edited(rows, i, tuple(-n for n in rows[i])),
        edited(rows, i, tuple(2 * n for n in rows[i])),
        edited(rows, i, lattice.plus(rows[i], rows[j])),
        edited(rows, i, tuple(n << 60 if abs(n) < 2 else n for n in rows[i])),
        tuple(tuple(-n for n in row) for row in rows),
    ])
    return replace(mark, matrix=new)


def other_target(mark: Cross, random: Random, atlas: Atlas) -> Mark:
    """Another entry, or one that isn't there."""
    return replace(mark, target=random.randrange(len(atlas.entries) + 2))


def told_open(_: Cross, random: Random, atlas: Atlas) -> Mark:
    """A mark that is read as open."""
    marks: list[Mark] = [Open(), Wide(401, atlas.entries[0].simplices[0]), Heavy(1 << 112)]
    return random.choice(marks)


def marks_exchanged(entry: Entry, random: Random, _: Atlas) -> Entry:
    """Two marks exchanged."""
    return replace(entry, marks=exchanged(entry.marks, random))


def rows_exchanged(entry: Entry, random: Random, _: Atlas) -> Entry:
    """Two rows of a cone exchanged."""
    return replace(entry, regulators=exchanged(entry.regulators, random))


def row_dropped(entry: Entry, random: Random, _: Atlas) -> Entry:
    """A row of a cone less, and the mark of its facet."""
    row = random.randrange(len(entry.regulators))
    return without_mark(entry, row, edited(entry.regulators, row))


def row_doubled(entry: Entry, random: Random, _: Atlas) -> Entry:
    """A row of a cone more, with a mark where it is a facet."""
    row = random.randrange(len(entry.regulators))
    place = random.choice([row, len(entry.regulators)])
    rows = entry.regulators[:place] + (entry.regulators[row],) + entry.regulators[place:]
    more = (Open(),) if isinstance(entry.regulators[row].verdict, Wall) else ()
    return replace(entry, regulators=rows, marks=entry.marks + more)


def without_mark(entry: Entry, row: int, rows: tuple[Regulator, ...]) -> Entry:
    """The entry with other rows, without the mark of a row that was a facet."""
    facets = [place for place, _, _ in entry.facets()]
    marks = edited(entry.marks, facets.index(row)) if row in facets else entry.marks
    return replace(entry, regulators=rows, marks=marks)


def told_redundant(entry: Entry, random: Random, _: Atlas) -> Entry:
    """A facet with a combination in the place of its wall form."""
    row = random.choice([place for place, _, _ in entry.facets()])
    terms = tuple((place, random.randrange(1, 3)) for place in sorted(random.sample(range(len(entry.regulators)), 2)))
    changed = replace(entry.regulators[row], verdict=Combination(1, terms))
    return without_mark(entry, row, edited(entry.regulators, row, changed))


def wall_changed(row: int, entry: Entry, random: Random) -> Regulator:
    """A wall form times 2, of another facet, or moved; a combination with other numbers."""
    regulator = entry.regulators[row]
    if isinstance(regulator.verdict, Combination):
        return replace(regulator, verdict=combination_changed(regulator.verdict, entry, random))
    form = regulator.verdict.form
    new = random.choice([
        tuple(2 * n for n in form),
        tuple(-n for n in form),
        random.choice([other for _, _, other in entry.facets()]),
        tuple(a + b for a, b in zip(form, entry.form)),
        edited(form, 0, form[0] + 1),
    ])
    return replace(regulator, verdict=Wall(new))


def combination_changed(verdict: Combination, entry: Entry, random: Random) -> Combination:
    """A combination with another scale, terms exchanged, doubled or with a term of coefficient 0."""
    extra = (random.randrange(len(entry.regulators)), random.choice([0, 1, -1]))
    return random.choice([
        replace(verdict, scale=verdict.scale + random.choice([-1, 1])),
        replace(verdict, terms=verdict.terms[::-1]),
        Combination(2 * verdict.scale, tuple((place, 2 * number) for place, number in verdict.terms)),
        replace(verdict, terms=tuple(sorted(verdict.terms + (extra,)))),
        replace(verdict, terms=verdict.terms[:-1]),
        replace(verdict, terms=((extra[0], verdict.terms[0][1]),) + verdict.terms[1:]),
    ])


def normal_changed(row: int, entry: Entry, random: Random) -> Regulator:
    """A regulator times 2, negated, or with another number."""
    regulator = entry.regulators[row]
    normal = regulator.normal
    place = random.randrange(len(normal))
    new = random.choice([
        tuple(2 * n for n in normal),
        tuple(-n for n in normal),
        edited(normal, place, normal[place] + random.choice([-1, 1])),
    ])
    return replace(regulator, normal=new)


def summed(entry: Entry) -> Entry:
    """The entry with the primitive sum of its wall forms."""
    return replace(entry, form=lattice.primitive([sum(column) for column in zip(*(form for _, _, form in entry.facets()))]))


def other_wall(entry: Entry, random: Random, atlas: Atlas) -> Entry:
    """Another right wall form, where the facets are independent; the form is that of the sum in half of the texts."""
    facets = list(entry.facets())
    det, inverse = lattice.adjugate([normal for _, normal, _ in facets])
    if not det:
        return entry
    chosen = random.randrange(len(facets))
    values = tuple(0 if k == chosen else random.randrange(1, 20) for k in range(len(facets)))
    sign = 1 if det > 0 else -1
    form = lattice.primitive([sign * number for number in lattice.apply(inverse, values)])
    row = facets[chosen][0]
    changed = replace(entry, regulators=edited(entry.regulators, row, replace(entry.regulators[row], verdict=Wall(form))))
    return summed(changed) if random.random() < 0.5 else changed


def form_changed(entry: Entry, random: Random, _: Atlas) -> Entry:
    """The form times 2 or 3, or with another number."""
    place = random.randrange(len(entry.form))
    factor = random.choice([-1, 2, 3])
    moved = edited(entry.form, place, entry.form[place] + random.choice([-1, 1]))
    return replace(entry, form=random.choice([tuple(factor * n for n in entry.form), moved]))


def classes_changed(entry: Entry, random: Random, atlas: Atlas) -> Entry:
    """Listed classes exchanged, dropped, doubled, of another entry, or carried by a matrix; or a class with its negative."""
    listed, classes = entry.listed, entry.simplices
    place = random.randrange(len(listed))
    shear = edited(lattice.identity(atlas.dimension), 0, (1,) * atlas.dimension)
    new = random.choice([
        exchanged(listed, random),
        edited(listed, place) if len(listed) > 1 else listed,
        edited(listed, place, listed[place], listed[place]),
        edited(listed, place, exchanged(listed[place], random)),
        listed_of(entry, lattice.image(shear, classes)),
        listed_of(entry, lattice.image(random.choice(automorphisms(classes)), classes)),
        random.choice(atlas.entries).listed,
        *negatives_listed(listed, place),
    ])
    return replace(entry, listed=new)


def listed_of(entry: Entry, classes: tuple[Simplex, ...]) -> tuple[Simplex, ...]:
    """The classes as the entry's version lists them."""
    return classes if entry.version == 1 else half(classes)


def negatives_listed(listed: tuple[Simplex, ...], place: int) -> list[tuple[Simplex, ...]]:
    """A class with its negative beside it, in order or not, or in its place; all negatives; and all classes with theirs."""
    negative = negative_of(listed[place])
    negatives = tuple(map(negative_of, listed))
    return [
        edited(listed, place, listed[place], negative),
        tuple(sorted(listed + (negative,))),
        edited(listed, place, negative),
        tuple(sorted(edited(listed, place, negative))),
        tuple(sorted(negatives)),
        tuple(sorted(set(listed + negatives))),
    ]


def other_origin(entry: Entry, random: Random, atlas: Atlas) -> Entry:
    """Another origin."""
    if entry.origin is None:
        return entry
    facet = random.randrange(numbers_of_form(atlas.dimension) + 2)
    return replace(entry, origin=Origin(random.randrange(len(atlas.entries) + 1), facet))


def last_dropped(atlas: Atlas, random: Random) -> Atlas:
    """The last entry less; marks that name it stay, or are open."""
    kept = atlas.entries[:-1] or atlas.entries
    if random.random() < 0.5:
        return replace(atlas, entries=kept)
    return replace(atlas, entries=tuple(replace(e, marks=tuple(map(named(len(kept)), e.marks))) for e in kept))


def named(count: int) -> Callable[[Mark], Mark]:
    """A mark stays where it names one of so many entries, and is else open."""
    return lambda mark: mark if isinstance(mark, Cross) and mark.target < count else Open()


def other_dimension(atlas: Atlas, random: Random) -> Atlas:
    """The line of the dimension is another one, or the whole text is: the program is then asked for any dimension."""
    if random.random() < 0.5:
        return atlas
    return replace(atlas, dimension=random.choice([n for n in (0, 1, 2, 3, 4, 5, 6, 7) if n != atlas.dimension]))


def untouched(atlas: Atlas, _: Random) -> Atlas:
    """The text as it is."""
    return atlas


# ---- an equivalent entry, right in itself


def pulled_form(form: tuple[int, ...], matrix: Matrix) -> tuple[int, ...]:
    """The form whose value at x is that of the given one at the matrix times x."""
    d = len(matrix)
    gram = lattice.times(lattice.times(tuple(zip(*matrix)), tuple(map(tuple, lattice.doubled_gram(form, d)))), matrix)
    return tuple(gram[i][i] // 2 if i == j else gram[i][j] for i in range(d) for j in range(i, d))


def moved_normal(normal: Normal, matrix: Matrix) -> Normal:
    """The normal whose value at a form is that of the given one at the form pulled back by the matrix's inverse."""
    d = len(matrix)
    square = [[0] * d for _ in range(d)]
    numbers = iter(normal)
    for i in range(d):
        for j in range(i, d):
            square[i][j] = square[j][i] = next(numbers)
    moved = lattice.times(lattice.times(matrix, tuple(map(tuple, square))), tuple(zip(*matrix)))
    return tuple(moved[i][j] for i in range(d) for j in range(i, d))


def moved_rows(entry: Entry, matrix: Matrix, inverse: Matrix) -> tuple[tuple[Regulator, ...], list[int]]:
    """The rows of the entry's cone carried by the inverse, in order, and the rows from which they came."""
    normals = [moved_normal(normal, inverse) for normal in entry.normals()]
    came = sorted(range(len(normals)), key=normals.__getitem__)
    place = {row: k for k, row in enumerate(came)}

    def verdict(row: int) -> Any:
        old = entry.regulators[row].verdict
        if isinstance(old, Wall):
            return Wall(pulled_form(old.form, matrix))
        return replace(old, terms=tuple(sorted((place[k], number) for k, number in old.terms)))

    return tuple(Regulator(normals[row], verdict(row)) for row in came), came


def equivalent_entry(atlas: Atlas, random: Random) -> Atlas:
    """One entry more: what lies beyond a crossed facet, with its right cone; its marks are crossed in half of the texts."""
    number, facet, mark = random.choice(list(atlas.crossings()))
    entry, target = atlas.entries[number], atlas.entries[mark.target]
    normal = [normal for _, normal, _ in entry.facets()][facet]
    classes = lattice.flip(entry.simplices, lattice.pairs_by_regulator(entry.simplices)[normal])
    det, adjugate = lattice.adjugate(mark.matrix)
    inverse = tuple(tuple(det * n for n in row) for row in adjugate)
    rows, came = moved_rows(target, mark.matrix, inverse)
    old = {row: target.marks[k] for k, (row, _, _) in enumerate(target.facets())}
    count = len(atlas.entries)
    marks: tuple[Mark, ...] = tuple(moved_mark(old[row], mark.matrix) for row in came if row in old)
    if random.random() < 0.5:
        marks = tuple(Open() for _ in marks)
    new = summed(Entry(entry.version, count, Origin(number, facet), listed_of(entry, classes), rows, (), marks))
    crossing = replace(entry, marks=edited(entry.marks, facet, Cross(count, lattice.identity(atlas.dimension))))
    return replace(atlas, entries=edited(atlas.entries, number, crossing) + (new,))


def moved_mark(mark: Mark, matrix: Matrix) -> Mark:
    """The mark of an entry from which the matrix leads to the mark's own."""
    return replace(mark, matrix=lattice.times(mark.matrix, matrix)) if isinstance(mark, Cross) else mark


VALUES: dict[str, Values] = {
    "untouched": untouched,
    "times an automorphism": in_cross(by_automorphism),
    "another matrix": in_cross(wrong_matrix),
    "another target": in_cross(other_target),
    "told open": in_cross(told_open),
    "marks exchanged": in_entry(marks_exchanged),
    "rows exchanged": in_entry(rows_exchanged),
    "a row dropped": in_entry(row_dropped),
    "a row doubled": in_entry(row_doubled),
    "told redundant": in_entry(told_redundant),
    "a certificate": in_row(wall_changed),
    "a normal": in_row(normal_changed),
    "another wall form": in_entry(other_wall),
    "the form": in_entry(form_changed),
    "classes": in_entry(classes_changed),
    "an origin": in_entry(other_origin),
    "the last entry dropped": last_dropped,
    "another dimension": other_dimension,
    "an equivalent entry": equivalent_entry,
}

BYTES: dict[str, Bytes] = {
    "a number": with_number(another_number),
    "a sign": with_number(lambda number, _: -number),
    "a border": with_number(border),
    "an odd spelling": with_number(odd_spelling),
    "a huge count": huge_count,
    "a line dropped": line_dropped,
    "a line doubled": line_doubled,
    "lines exchanged": lines_exchanged,
    "a byte": byte_changed,
    "a byte more or less": byte_moved,
    "a tail": tail,
    "a carriage return": carriage_return,
    "a front": cut,
    "an entry renumbered": entry_renumbered,
    "no last line feed": lambda data, _: data.rstrip(b"\n"),
    "another version": another_version,
}
