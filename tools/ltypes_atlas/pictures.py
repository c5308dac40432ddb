"""Pictures of an atlas as SVG. All of a picture comes from the atlas; nothing in it is drawn or written by hand."""

from __future__ import annotations

from collections import defaultdict, deque
from math import cos, pi, sin, sqrt
from typing import Callable, Iterable, Iterator, Union

from ltypes_atlas import lattice
from ltypes_atlas.lattice import dot
from ltypes_atlas.text import Atlas, Cross, Entry, Form, Simplex

Place = tuple[float, float]
SIZE = 640.0
CELLS = 7
RADIUS = 0.88 * SIZE / 2
TILE_LIMIT = 400
PALETTE = ("#f6d9a8", "#b9d9c4", "#c3cfe8", "#e8c3cf", "#d8d1b0", "#cfc3e8")


# ---- elements


def element(name: str, body: str = "", /, **attributes: Union[str, int, float]) -> str:
    """An element; `_` in the name of an attribute stands for `-`."""
    words = "".join(f' {key.replace("_", "-")}="{value}"' for key, value in attributes.items())
    return f"<{name}{words}>{body}</{name}>\n" if body else f"<{name}{words}/>\n"


def short(number: float) -> str:
    """A coordinate with two places, so that a picture is the same on each machine."""
    return f"{number + 0.0:.2f}".replace("-0.00", "0.00")


def dot_at(place: Place, radius: float, **style: Union[str, int, float]) -> str:
    """A circle."""
    return element("circle", cx=short(place[0]), cy=short(place[1]), r=short(radius), **style)


def polygon(places: Iterable[Place], **style: Union[str, int, float]) -> str:
    """A polygon."""
    return element("polygon", points=" ".join(f"{short(x)},{short(y)}" for x, y in places), **style)


def segment(a: Place, b: Place, **style: Union[str, int, float]) -> str:
    """A segment."""
    return element("line", x1=short(a[0]), y1=short(a[1]), x2=short(b[0]), y2=short(b[1]), **style)


def label(place: Place, words: str, size: int = 14) -> str:
    """A line of text, centred."""
    x, y = short(place[0]), short(place[1])
    return element("text", words, x=x, y=y, font_size=size, text_anchor="middle", font_family="serif")


def drawing(width: float, height: float, body: Iterable[str]) -> Iterator[str]:
    """A whole picture."""
    box = f"0 0 {short(width)} {short(height)}"
    yield f'<svg xmlns="http://www.w3.org/2000/svg" width="{short(width)}" height="{short(height)}" viewBox="{box}">\n'
    yield element("rect", width="100%", height="100%", fill="white")
    yield from body
    yield "</svg>\n"


def need_plane(atlas: Atlas) -> Entry:
    """The one entry of an atlas of dimension 2."""
    if atlas.dimension != 2:
        raise SystemExit("this picture is of dimension 2")
    return atlas.entries[0]


# ---- a flip in the plane


def across(entry: Entry, facet: int) -> tuple[Form, Form, tuple[Simplex, ...]]:
    """Forms before and behind a facet, at the least equal distance from its wall form, and the triangulation behind."""
    _, normal, wall = list(entry.facets())[facet]
    beyond = lattice.flip(entry.simplices, lattice.pairs_by_regulator(entry.simplices)[normal])
    normals = sorted(lattice.pairs_by_regulator(beyond))
    times = 1
    while True:
        behind = tuple(times * w - a for w, a in zip(wall, entry.form))
        if all(dot(n, behind) > 0 for n in normals):
            return tuple(times * w + a for w, a in zip(wall, entry.form)), behind, beyond
        times += 1


def drawn_point(form: Form, x: tuple[float, ...], scale: float, centre: Place) -> Place:
    """The point x in coordinates in which the form is the squared length."""
    a, b, c = form
    root = sqrt(a)
    across_, up = root * x[0] + b / (2 * root) * x[1], sqrt(c - b * b / (4 * a)) * x[1]
    return centre[0] + scale * across_, centre[1] - scale * up


def circle_through(a: Place, b: Place, c: Place) -> tuple[Place, float]:
    """The centre and the radius of the circle through three places."""
    bx, by, cx, cy = b[0] - a[0], b[1] - a[1], c[0] - a[0], c[1] - a[1]
    area = 2 * (bx * cy - by * cx)
    x = (cy * (bx * bx + by * by) - by * (cx * cx + cy * cy)) / area
    y = (bx * (cx * cx + cy * cy) - cx * (bx * bx + by * by)) / area
    return (a[0] + x, a[1] + y), sqrt(x * x + y * y)


def plane_triangulation(form: Form, classes: Iterable[Simplex], left: float) -> Iterator[str]:
    """The triangles of cells around 0, the empty circles of those at 0, and the points."""
    a, b, c = form
    scale = SIZE / 5 / max(sqrt(a), sqrt(c))
    centre = (left + SIZE / 2, SIZE / 2)
    cells = range(-CELLS, CELLS + 1)
    for place, simplex in enumerate(sorted(classes)):
        for shift in ((i, j) for i in cells for j in cells):
            corners = [drawn_point(form, lattice.plus(v, shift), scale, centre) for v in simplex]
            yield polygon(corners, fill=PALETTE[place % len(PALETTE)], stroke="#555555", stroke_width=1)
    for simplex in classes:
        middle, radius = circle_through(*(drawn_point(form, v, scale, centre) for v in simplex))
        yield dot_at(middle, radius, fill="none", stroke="#b03030", stroke_width=2)
    for point in ((i, j) for i in range(-CELLS, CELLS + 2) for j in range(-CELLS, CELLS + 2)):
        yield dot_at(drawn_point(form, point, scale, centre), 4, fill="black")


def clipped(number: int, left: float, body: Iterable[str]) -> Iterator[str]:
    """The elements, of which what is outside a square is cut away."""
    square = element("rect", x=short(left), y="0.00", width=short(SIZE), height=short(SIZE))
    yield element("clipPath", square, id=f"square{number}")
    yield f'<g clip-path="url(#square{number})">\n'
    yield from body
    yield "</g>\n"


def flip_picture(atlas: Atlas) -> Iterator[str]:
    """The Delaunay triangulations and empty circles of two forms, before and behind the first facet."""
    entry = need_plane(atlas)
    before, behind, beyond = across(entry, 0)

    def body() -> Iterator[str]:
        for number, (form, classes) in enumerate(((before, entry.simplices), (behind, beyond))):
            left = number * SIZE
            yield from clipped(number, left, plane_triangulation(form, classes, left))
            yield label((left + SIZE / 2, SIZE + 26), " ".join(map(str, form)), 18)
        yield segment((SIZE, 0.0), (SIZE, SIZE), stroke="white", stroke_width=8)

    return drawing(2 * SIZE, SIZE + 40, body())


# ---- the cone of dimension 2 and its images


def edge_forms(entry: Entry) -> list[Form]:
    """The forms on the edges of a cone of dimension 3, each on two of its three facets."""
    normals = [normal for _, normal, _ in entry.facets()]
    edges = []
    for k, third in enumerate(normals):
        (a, b, c), (x, y, z) = normals[:k] + normals[k + 1 :]
        form = (b * z - c * y, c * x - a * z, a * y - b * x)
        edges.append(lattice.primitive(form if dot(third, form) > 0 else [-number for number in form]))
    return edges


def form_at(form: Form, matrix: tuple[tuple[int, ...], ...]) -> Form:
    """The form whose value at x is that of the given one at the matrix times x."""
    a, b, c = form
    (p, q), (r, s) = matrix
    return (
        a * p * p + b * p * r + c * r * r,
        2 * a * p * q + b * (p * s + q * r) + 2 * c * r * s,
        a * q * q + b * q * s + c * s * s,
    )


def in_disc(form: Form, radius: float = RADIUS) -> Place:
    """The form in the section of trace 1, in which semidefinite forms make a disc."""
    a, b, c = form
    return SIZE / 2 + radius * (a - c) / (a + c), SIZE / 2 - radius * b / (a + c)


def images(entry: Entry) -> Iterator[tuple[int, list[Form]]]:
    """The edges of the cone and of its images, crossing by crossing, each with its distance in crossings."""
    edges = edge_forms(entry)
    steps = [mark.matrix for mark in entry.marks if isinstance(mark, Cross)]
    one = lattice.identity(2)
    queue, seen = deque([(0, one)]), {tuple(sorted(edges))}
    count = 0
    while queue and count < TILE_LIMIT:
        distance, matrix = queue.popleft()
        count += 1
        yield distance, [form_at(edge, matrix) for edge in edges]
        for step in steps:
            following = lattice.times(step, matrix)
            tile = tuple(sorted(form_at(edge, following) for edge in edges))
            if tile not in seen:
                seen.add(tile)
                queue.append((distance + 1, following))


def cone_picture(atlas: Atlas) -> Iterator[str]:
    """The secondary cone of dimension 2 and its images, in a section of the cone of semidefinite forms."""
    entry = need_plane(atlas)

    def body() -> Iterator[str]:
        yield dot_at((SIZE / 2, SIZE / 2), RADIUS, fill="#eeeeee", stroke="black", stroke_width=1)
        for distance, edges in images(entry):
            colour = PALETTE[distance % len(PALETTE)]
            yield polygon(map(in_disc, edges), fill=colour, stroke="#333333", stroke_width=0.5)
        for edge in edge_forms(entry):
            yield label(in_disc(edge, 1.07 * RADIUS), " ".join(map(str, edge)))

    return drawing(SIZE, SIZE, body())


# ---- the graph of types


def children(atlas: Atlas) -> dict[int, list[int]]:
    """The entries that were found from each entry."""
    found: dict[int, list[int]] = defaultdict(list)
    for entry in atlas.entries:
        if entry.origin is not None:
            found[entry.origin.entry].append(entry.number)
    return found


def leaves(found: dict[int, list[int]], count: int) -> list[int]:
    """The number of leaves below each entry; an origin has a lesser number than what was found from it."""
    sizes = [0] * count
    for number in reversed(range(count)):
        sizes[number] = sum(sizes[child] for child in found[number]) or 1
    return sizes


def graph_side(atlas: Atlas) -> float:
    """The side of the square in which the graph is drawn: its area grows with the number of types, up to a bound."""
    return min(2.5 * SIZE, 210 + 110 * sqrt(len(atlas.entries)))


def layout(atlas: Atlas) -> list[Place]:
    """A place for each entry: rings by the distance from entry 0 in origins, in sectors as wide as the leaves below."""
    found = children(atlas)
    sizes = leaves(found, len(atlas.entries))
    sectors = {0: (0.0, 2 * pi, 0)}
    for entry in atlas.entries:
        start, width, ring = sectors[entry.number]
        for child in found[entry.number]:
            part = width * sizes[child] / sizes[entry.number]
            sectors[child] = (start, part, ring + 1)
            start += part
    rings = max(ring for _, _, ring in sectors.values()) or 1
    middle = graph_side(atlas) / 2
    gap = 0.92 * middle / rings
    angles = [(sectors[k][0] + sectors[k][1] / 2, sectors[k][2] * gap) for k in range(len(atlas.entries))]
    return [(middle + radius * cos(angle), middle + radius * sin(angle)) for angle, radius in angles]


def graph_picture(atlas: Atlas) -> Iterator[str]:
    """The types, joined where a facet leads from one to the other; origins are thick. Discs grow with the facets."""
    places = layout(atlas)
    joins = {(min(k, mark.target), max(k, mark.target)) for k, _, mark in atlas.crossings() if k != mark.target}
    origins = {(e.origin.entry, e.number) for e in atlas.entries if e.origin is not None}
    size = atlas.dimension * (atlas.dimension + 1) // 2

    def body() -> Iterator[str]:
        for a, b in sorted(joins - origins):
            yield segment(places[a], places[b], stroke="#9aa8bb", stroke_width=0.5)
        for a, b in sorted(origins):
            yield segment(places[a], places[b], stroke="#333333", stroke_width=2)
        for entry in atlas.entries:
            facets = len(entry.marks)
            fill = PALETTE[(facets - size) % len(PALETTE)]
            yield dot_at(places[entry.number], 8 + (facets - size), fill=fill, stroke="black", stroke_width=1)
            yield label((places[entry.number][0], places[entry.number][1] + 3), str(entry.number), 9)

    side = graph_side(atlas)
    return drawing(side, side, body())


PICTURES: dict[str, Callable[[Atlas], Iterator[str]]] = {
    "flip": flip_picture,
    "cone": cone_picture,
    "graph": graph_picture,
}
