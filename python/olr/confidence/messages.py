"""The messages of a feed, and answers to some of them that somebody checked."""

import csv
import io
import random
from collections.abc import Iterator, Mapping
from pathlib import Path
from typing import NamedTuple

from olr.errors import ToolError
from olr.messages.message import Reading
from olr.messages.reading import messages_of
from olr.model.answers import Reference
from olr.model.reference import read_reference
from olr.reservoir import Reservoir

MOST = 2_000
"""So many references of a feed are asked; of a longer one some that are drawn."""
LEAST_CHECKED = 20
"""Fewer answers that were checked say too little."""
WORDS = {"right": True, "wrong": False}
"""What a file of checked answers says of the likeliest place of a message."""


class Message(NamedTuple):
    """A message with a line reference."""

    text: str
    reference: Reference


class Feed(NamedTuple):
    """Messages with line references: all of a file, or some that were drawn."""

    messages: list[Message]
    by_key: Mapping[str, Message]
    """Those whose keys were asked for."""
    total: int
    """How many the file has."""

    def texts(self) -> list[str]:
        """Their references."""
        return [one.text for one in self.messages]


def read_line_references(file: Path, reading: Reading, keys: Mapping[str, bool], seed: int) -> Feed:
    """The messages of a file. Raises `ToolError` if it can't be read, has no line reference, or has two references with one of the keys."""
    some: Reservoir[Message] = Reservoir(MOST, random.Random(f"{seed} feed"))
    by_key: dict[str, Message] = {}
    for message in messages_of(file, reading):
        reference = read_reference(message.reference)
        if reference is None or reference.kind != "line":
            continue
        found = Message(message.reference, reference)
        some.add(found)
        if message.key is not None and message.key in keys:
            if by_key.setdefault(message.key, found).text != found.text:
                raise ToolError(
                    f"{file}: two messages have the key {message.key!r}, so it isn't known which one was checked"
                )
    if not some.seen:
        raise ToolError(f"{file} has no line reference: name a file that has some")
    return Feed(some.kept, by_key, some.seen)


def read_checked(file: Path) -> dict[str, bool]:
    """Whether the likeliest places of some messages are right, by their keys: a file with a key, a comma or a tab, and `right` or `wrong` on
    each line; a first line that says `key` is passed over. Raises `ToolError` if it can't be read, a line is none, or a key is there twice.
    """
    try:
        lines = file.read_text(encoding="utf-8-sig").splitlines()
    except (OSError, UnicodeDecodeError) as error:
        reason = getattr(error, "strerror", None) or "it isn't UTF-8"
        raise ToolError(f"{file} can't be read: {reason}") from error
    return dict(_checked(file, lines))


def start_of_line(key: str) -> str | None:
    """The line of such a file about a message with a key, but for the word at its end. None for a key that no line can have: one with the end
    of a line in it."""
    line = io.StringIO()
    separator = "\t" if "\t" in key else ","
    csv.writer(line, delimiter=separator, lineterminator="").writerow([key, ""])
    start = line.getvalue()
    whole = start + next(iter(WORDS))
    return start if whole.splitlines() == [whole] and _fields(whole)[0] == key else None


def _checked(file: Path, lines: list[str]) -> Iterator[tuple[str, bool]]:
    """The answers of lines."""
    keys: set[str] = set()
    for number, row in enumerate(map(_fields, lines), 1):
        if not row or number == 1 and row[0] == "key":
            continue
        if len(row) != 2 or row[1].strip() not in WORDS:
            raise ToolError(
                f"{file}: line {number} isn't a key, a comma or a tab, and one of {', '.join(WORDS)}"
            )
        if row[0] in keys:
            raise ToolError(f"{file}: line {number} has the key {row[0]!r} again")
        keys.add(row[0])
        yield row[0], WORDS[row[1].strip()]


def _fields(line: str) -> list[str]:
    """The fields of a line; the line itself if it has none that can be told apart."""
    try:
        return next(csv.reader([line], delimiter="\t" if "\t" in line else ","), [])
    except csv.Error:
        return [line]
