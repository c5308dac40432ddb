#!/usr/bin/env python3
"""Commands on the text of an atlas, as `ltypes run D` prints it. tools/README.md tells what each does."""

from __future__ import annotations

import argparse
import os
import sys
from typing import Callable, Iterable, Sequence, TypeVar

from ltypes_atlas import blocks, converting, exporting, ordering, pictures, pruning, tables, text
from ltypes_atlas.rechecking import Recheck


Value = TypeVar("Value")


def read_from(path: str, read: Callable[[Iterable[str]], Value]) -> Value:
    """What is read of the file, or of standard input where the path is a stroke."""
    with open(0 if path == "-" else path, encoding="ascii", errors="replace", newline="\n") as lines:
        return read(lines)


def write_lines(lines: Iterable[str]) -> int:
    """Writes to standard output."""
    sys.stdout.writelines(lines)
    return 0


def recheck(path: str) -> int:
    """Prints a line for each fault; the status is 0 where there is none, else 1."""
    try:
        checker = Recheck(read_from(path, text.read))
    except text.TextError as error:
        print(f"text {error}")
        return 1
    count = 0
    for fault in checker.faults():
        count += 1
        print(fault)
    print(checker.summary)
    print(f"{count} faults" if count else "no fault; this answer of plain Python isn't proved")
    return 1 if count else 0


def parser() -> argparse.ArgumentParser:
    """The words of the command line."""
    top = argparse.ArgumentParser(description=__doc__)
    commands = top.add_subparsers(dest="command", required=True)
    for name, told in (
        ("recheck", "test every certificate by plain whole numbers"),
        ("types", "print a table of the types"),
        ("export", "print the atlas in another language"),
        ("picture", "print a picture (SVG)"),
        ("reorder", "print the same atlas in another order of entries"),
        ("prune", "print the same atlas with every facet open but those across which an entry was found"),
        ("convert", "print the same atlas in another version of the text, without wide and heavy marks"),
    ):
        command = commands.add_parser(name, help=told, description=told)
        command.add_argument("atlas", nargs="?", default="-", help="the file of the text; a stroke is standard input")
        if name == "export":
            command.add_argument("--to", required=True, choices=sorted(exporting.WRITERS))
        if name == "picture":
            command.add_argument("--of", required=True, choices=sorted(pictures.PICTURES))
        if name == "reorder":
            command.add_argument("--seed", type=int, default=0)
        if name == "convert":
            command.add_argument("--to", type=int, choices=text.VERSIONS, default=2)
    return top


def changed(asked: argparse.Namespace) -> Iterable[str]:
    """The lines that a command prints whose atlas reads as a text."""
    if asked.command == "reorder":
        return blocks.written(ordering.reordered(read_from(asked.atlas, blocks.read), asked.seed))
    if asked.command == "prune":
        return blocks.written(pruning.pruned(read_from(asked.atlas, blocks.read)))
    atlas = read_from(asked.atlas, text.read)
    if asked.command == "types":
        return tables.table(atlas)
    if asked.command == "export":
        return exporting.WRITERS[asked.to](atlas)
    if asked.command == "picture":
        return pictures.PICTURES[asked.of](atlas)
    return text.written(converting.reopened(atlas), asked.to)


def main(words: Sequence[str]) -> int:
    """Carries out a command; the answer is the status."""
    asked = parser().parse_args(words)
    if asked.command == "recheck":
        return recheck(asked.atlas)
    try:
        return write_lines(changed(asked))
    except text.TextError as error:
        print(f"text {error}", file=sys.stderr)
        return 1


if __name__ == "__main__":
    try:
        sys.exit(main(sys.argv[1:]))
    except BrokenPipeError:
        os._exit(1)
