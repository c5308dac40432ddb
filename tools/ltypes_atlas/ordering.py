"""The same atlas in another order of its entries, in which each comes after its origin."""

from __future__ import annotations

import random
from dataclasses import replace
from typing import Sequence

from ltypes_atlas.blocks import Block, Blocks


def order_of(entries: Sequence[Block], seed: int) -> list[int]:
    """The numbers of the entries in a random order in which each comes after its origin."""
    generator = random.Random(seed)
    found: list[list[int]] = [[] for _ in entries]
    for number, entry in enumerate(entries):
        if entry.origin is not None:
            found[entry.origin.entry].append(number)
    ready, order = [0], []
    while ready:
        number = ready.pop(generator.randrange(len(ready)))
        order.append(number)
        ready += found[number]
    return order


def renamed_mark(line: str, names: dict[int, int]) -> str:
    """The mark with the new number of its entry. Its matrix stays, since all classes stay as they are."""
    if not line.startswith("cross "):
        return line
    word, target, matrix = line.split(" ", 2)
    return f"{word} {names[int(target)]} {matrix}"


def renamed(entry: Block, names: dict[int, int]) -> Block:
    """The entry with new numbers of its origin and its marks."""
    origin = entry.origin and replace(entry.origin, entry=names[entry.origin.entry])
    return replace(entry, origin=origin, marks=tuple(renamed_mark(mark, names) for mark in entry.marks))


def reordered(blocks: Blocks, seed: int) -> Blocks:
    """The atlas in the order that the seed gives."""
    order = order_of(blocks.entries, seed)
    names = {number: place for place, number in enumerate(order)}
    return replace(blocks, entries=tuple(renamed(blocks.entries[number], names) for number in order))
