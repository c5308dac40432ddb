"""The same atlas without wide and heavy marks, as `ltypes` reads and converts it."""

from __future__ import annotations

from dataclasses import replace

from ltypes_atlas.text import Atlas, Cross, Entry, Mark, Open


def reopened_mark(mark: Mark) -> Mark:
    """A crossed mark stays; all others are open."""
    return mark if isinstance(mark, Cross) else Open()


def reopened_entry(entry: Entry) -> Entry:
    """The entry with crossed and open marks alone."""
    return replace(entry, marks=tuple(map(reopened_mark, entry.marks)))


def reopened(atlas: Atlas) -> Atlas:
    """The atlas with crossed and open marks alone."""
    return replace(atlas, entries=tuple(map(reopened_entry, atlas.entries)))
