"""An atlas as blocks of lines, for changes that touch no number but those of entries: a text of a hundred megabytes passes in seconds."""

from __future__ import annotations

from dataclasses import dataclass
from itertools import islice
from typing import Iterable, Iterator, Union

from ltypes_atlas.text import Origin, Reader, TextError, came_from, spelt


@dataclass(frozen=True)
class Block:
    """An entry: where it comes from, its lines from the count of classes to the form, and the lines of its marks."""

    origin: Union[Origin, None]
    lines: tuple[str, ...]
    marks: tuple[str, ...]


@dataclass(frozen=True)
class Blocks:
    """The entries of a text of the version and the dimension."""

    version: int
    dimension: int
    entries: tuple[Block, ...]


class BlockReader(Reader):
    """Reads a text block by block; of the lines between headers nothing is read."""

    def raw(self, word: str) -> tuple[str, ...]:
        """The lines that a header counts."""
        count = self.header(word)
        lines = tuple(islice(self.lines, count))
        self.number += len(lines)
        if len(lines) < count:
            raise TextError(self.number + 1, "the text ends too early")
        return lines

    def block(self, number: int) -> Block:
        """The lines of the entry with this number."""
        origin = self.origin(number)
        simplices, regulators = self.raw("simplices"), self.raw("regulators")
        form = " ".join(self.line().words) + "\n"
        lines = (spelt("simplices", len(simplices)), *simplices, spelt("regulators", len(regulators)), *regulators, form)
        return Block(origin, lines, self.raw("marks"))


def read(lines: Iterable[str]) -> Blocks:
    """The blocks of a text."""
    reader = BlockReader(lines)
    entries = tuple(reader.block(number) for number in range(reader.start()))
    reader.finish()
    return Blocks(reader.version, reader.dimension, entries)


def written(blocks: Blocks) -> Iterator[str]:
    """The lines of the text."""
    yield from (spelt("ltypes", blocks.version), spelt("dimension", blocks.dimension), spelt("entries", len(blocks.entries)))
    for number, block in enumerate(blocks.entries):
        yield spelt("entry", number, *came_from(block.origin))
        yield from block.lines
        yield spelt("marks", len(block.marks))
        yield from block.marks
    yield spelt("end")
