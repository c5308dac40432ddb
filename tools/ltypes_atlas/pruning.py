"""The same atlas with every facet open but those across which an entry was found."""

from __future__ import annotations

from dataclasses import replace

from ltypes_atlas.blocks import Blocks

OPEN = "open\n"


def pruned(blocks: Blocks) -> Blocks:
    """The atlas with the marks alone that the origins of its entries name."""
    origins = {(entry.origin.entry, entry.origin.facet) for entry in blocks.entries if entry.origin}
    return replace(
        blocks,
        entries=tuple(
            replace(
                entry,
                marks=tuple(mark if (number, facet) in origins else OPEN for facet, mark in enumerate(entry.marks)),
            )
            for number, entry in enumerate(blocks.entries)
        ),
    )
