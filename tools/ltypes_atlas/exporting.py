"""An atlas in the languages of other programs: forms, simplices, regulators, facets and crossings.

In each of them types, simplices and regulators are counted as the language counts; the numbers of types in crossings
are those of the atlas, from 0. `gram` is the symmetric matrix G with x G x = 2 Q[x].
"""

from __future__ import annotations

import json
from typing import Any, Callable, Iterator

from ltypes_atlas import lattice
from ltypes_atlas.text import Atlas, Cross, Entry, Heavy, Mark, Regulator, Wall, Wide


def crossings(entry: Entry) -> list[tuple[int, int, Any]]:
    """The crossed facets: the place among the facets from 0, the number of the type beyond, and the matrix."""
    return [(place, mark.target, mark.matrix) for place, mark in enumerate(entry.marks) if isinstance(mark, Cross)]


def facet_normals(entry: Entry) -> list[Any]:
    """The normals of the facets."""
    return [normal for _, normal, _ in entry.facets()]


def wall_forms(entry: Entry) -> list[Any]:
    """The wall forms of the facets."""
    return [form for _, _, form in entry.facets()]


# ---- JSON


def json_regulator(regulator: Regulator) -> dict[str, Any]:
    """A regulator with its certificate."""
    verdict = regulator.verdict
    if isinstance(verdict, Wall):
        return {"normal": regulator.normal, "wall": verdict.form}
    return {"normal": regulator.normal, "scale": verdict.scale, "terms": verdict.terms}


def json_mark(mark: Mark) -> dict[str, Any]:
    """A mark."""
    if isinstance(mark, Cross):
        return {"cross": mark.target, "matrix": mark.matrix}
    if isinstance(mark, Wide):
        return {"wide": mark.span, "simplex": mark.simplex}
    return {"heavy": mark.weight} if isinstance(mark, Heavy) else {"open": True}


def json_entry(entry: Entry) -> dict[str, Any]:
    """An entry."""
    origin = entry.origin
    return {
        "number": entry.number,
        "origin": None if origin is None else {"entry": origin.entry, "facet": origin.facet},
        "simplices": entry.simplices,
        "regulators": [json_regulator(regulator) for regulator in entry.regulators],
        "form": entry.form,
        "marks": [json_mark(mark) for mark in entry.marks],
    }


def to_json(atlas: Atlas) -> Iterator[str]:
    """One object; an entry a line."""
    yield f'{{"dimension": {atlas.dimension}, "entries": [\n'
    last = len(atlas.entries) - 1
    for place, entry in enumerate(atlas.entries):
        yield json.dumps(json_entry(entry)) + (",\n" if place < last else "\n")
    yield "]}\n"


# ---- nested lists


def nested(value: Any) -> str:
    """Nested lists of numbers in square brackets."""
    if isinstance(value, int):
        return str(value)
    return "[" + ",".join(nested(part) for part in value) + "]"


def wrapped(text: str, width: int = 100) -> str:
    """The text with line feeds behind commas, for readers of bounded lines."""
    lines, line = [], ""
    for part in text.replace(",", ",\0").split("\0"):
        if len(line) + len(part) > width:
            lines.append(line)
            line = ""
        line += part
    return "\n".join(lines + [line])


# ---- GAP


def gap_type(entry: Entry, dimension: int) -> str:
    """A record of a type."""
    fields = {
        "number": entry.number,
        "form": entry.form,
        "gram": lattice.doubled_gram(entry.form, dimension),
        "simplices": entry.simplices,
        "regulators": entry.normals(),
        "facets": facet_normals(entry),
        "walls": wall_forms(entry),
        "crossings": crossings(entry),
    }
    return "rec(" + ",".join(f"{name}:={nested(value)}" for name, value in fields.items()) + ")"


def to_gap(atlas: Atlas) -> Iterator[str]:
    """The list `ltypes` of records."""
    yield "ltypes := [];;\n"
    for entry in atlas.entries:
        yield wrapped(f"Add(ltypes, {gap_type(entry, atlas.dimension)});;") + "\n"


# ---- PARI/GP


def gp_matrix(matrix: Any) -> str:
    """A matrix."""
    return "[" + ";".join(",".join(map(str, row)) for row in matrix) + "]"


def gp_crossing(crossing: tuple[int, int, Any]) -> str:
    """The place of a facet, the type beyond, and the matrix."""
    facet, target, matrix = crossing
    return f"[{facet},{target},{gp_matrix(matrix)}]"


def to_gp(atlas: Atlas) -> Iterator[str]:
    """The vectors `ltypes_gram`, `ltypes_simplices`, `ltypes_regulators`, `ltypes_facets` and `ltypes_crossings`."""
    parts: dict[str, Callable[[Entry], str]] = {
        "gram": lambda entry: gp_matrix(lattice.doubled_gram(entry.form, atlas.dimension)),
        "simplices": lambda entry: nested(entry.simplices),
        "regulators": lambda entry: nested(entry.normals()),
        "facets": lambda entry: nested(facet_normals(entry)),
        "crossings": lambda entry: "[" + ",".join(map(gp_crossing, crossings(entry))) + "]",
    }
    for name, spell in parts.items():
        yield f"ltypes_{name} = vector({len(atlas.entries)});\n"
        for entry in atlas.entries:
            yield f"ltypes_{name}[{entry.number + 1}] = {spell(entry)};\n"


# ---- Sage


def sage_type(entry: Entry, dimension: int) -> str:
    """A dictionary of a type."""
    beyond = ", ".join(f"({f}, {k}, matrix(ZZ, {nested(u)}))" for f, k, u in crossings(entry))
    form = f"QuadraticForm(ZZ, {dimension}, {nested(entry.form)})"
    return (
        f"dict(number={entry.number}, form={form}, simplices={nested(entry.simplices)}, "
        f"regulators={nested(entry.normals())}, facets={nested(facet_normals(entry))}, crossings=[{beyond}])"
    )


def to_sage(atlas: Atlas) -> Iterator[str]:
    """The list `ltypes` of dictionaries, for `load`."""
    yield "from sage.all import QuadraticForm, ZZ, matrix\n"
    yield "ltypes = []\n"
    for entry in atlas.entries:
        yield f"ltypes.append({sage_type(entry, atlas.dimension)})\n"


# ---- polymake


def to_polymake(atlas: Atlas) -> Iterator[str]:
    """A script that makes the list `@ltypes`; `cone` is the secondary cone by all of its regulators."""
    yield 'use application "polytope";\n'
    yield "my @ltypes = ();\n"
    for entry in atlas.entries:
        yield (
            f"push @ltypes, {{ number => {entry.number}, form => {nested(entry.form)}, "
            f"simplices => {nested(entry.simplices)}, crossings => {nested(crossings(entry))}, "
            f"cone => new Cone(INEQUALITIES => {nested(entry.normals())}) }};\n"
        )
    yield 'print $_->{number}, " ", $_->{cone}->N_FACETS, "\\n" for @ltypes;\n'


WRITERS: dict[str, Callable[[Atlas], Iterator[str]]] = {
    "json": to_json,
    "gap": to_gap,
    "gp": to_gp,
    "sage": to_sage,
    "polymake": to_polymake,
}
