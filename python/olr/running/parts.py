"""A part: the lines of a group, with facts that show it whole.

The lines are moved to their place first, and the facts last. So a part is whole if its facts are there and agree with it, and else it
is made again: where a writer was killed between the two, and where a file was cut, emptied, overwritten or copied from another part.
"""

import hashlib
import json
import os
from collections.abc import Iterable, Iterator, Mapping, Sequence
from pathlib import Path
from typing import Any

from olr.errors import ToolError
from olr.outputs import folder_beside, sync, writing
from olr.running.joining import Lines, end_of, lines_of, number_of, write_lines


class NotWhole(ToolError):
    """A part isn't there, or isn't as it was written for its group."""


class Part:
    """The part of a group: a file of lines, and one of facts.

    | fact | what it has |
    |---|---|
    | `store`, `program`, `what`, `options`, `confidence` | what the lines were made with |
    | `group`, `records` | the number of the group, and the digest of its records |
    | `lines`, `bytes`, `sha256` | how many lines there are, how long the file is, and its digest |
    """

    def __init__(
        self, file: Path, facts: Path, origin: Mapping[str, Any], numbers: Sequence[int]
    ) -> None:
        """A part in these files. `origin` are the facts that are known before there are lines, and `numbers` the records, in the order
        of the lines."""
        self._file, self._facts = file, facts
        self._origin = {**origin, "lines": len(numbers)}
        self._numbers = numbers

    def write(self, lines: Iterable[bytes]) -> None:
        """Writes the lines, to the disk, and then the facts, which needn't be there: where they aren't as they were written, the part is
        made again. Raises `ToolError` if the folders can't be written, or there isn't one line for each record in turn: then there
        is no part, or the one that was there."""
        found = _Read(self._numbers)
        with writing(self._file.parent), folder_beside(self._file) as beside:
            try:
                made = write_lines(beside / self._file.name, found.through(lines))
            except ValueError as error:
                raise ToolError(f"{self._file} would not be whole: {error}") from error
            sync(made)
            facts = beside / self._facts.name
            facts.write_text(json.dumps({**self._origin, **found.facts()}, indent=4) + "\n")
            made.replace(self._file)
            facts.replace(self._facts)

    def lines(self) -> Lines:
        """The lines, which are checked as they are read. Raises `NotWhole`, at the end at the latest, and `ToolError` if a file can't be
        read."""
        wanted = self._facts_there()
        found = _Read(self._numbers)
        try:
            yield from found.through(lines_of(self._file))
        except ValueError as error:
            raise self._not_whole(str(error)) from error
        if found.facts() != wanted:
            raise self._not_whole("its bytes aren't those that were written")

    def _facts_there(self) -> dict[str, Any]:
        """What the facts have of the file of lines. Raises `NotWhole` if they are of other lines, and `ToolError`."""
        try:
            facts = dict(json.loads(self._facts.read_bytes()))
            size = os.stat(self._file).st_size
        except FileNotFoundError as error:
            raise self._not_whole(f"{error.filename} isn't there") from error
        except OSError as error:
            raise ToolError(f"{error.filename} can't be read: {error.strerror}") from error
        except (ValueError, TypeError) as error:
            raise self._not_whole(f"{self._facts} isn't understood") from error
        about = {name: facts.pop(name, None) for name in self._origin}
        if about != self._origin:
            others = ", ".join(name for name in about if about[name] != self._origin[name])
            raise self._not_whole(f"{self._facts} has other {others}")
        if facts.get("bytes") != size:
            raise self._not_whole(f"it has {size:,} bytes, and {facts.get('bytes')} were written")
        wanted: dict[str, Any] = facts
        return wanted

    def _not_whole(self, why: str) -> NotWhole:
        return NotWhole(f"{self._file} isn't whole: {why}: go on by --resume, which makes it again")


class _Read:
    """Lines that were passed on, each that of the next record, and what they are."""

    def __init__(self, numbers: Sequence[int]) -> None:
        self._numbers = numbers
        self._digest, self._bytes = hashlib.sha256(), 0

    def through(self, lines: Iterable[bytes]) -> Iterator[bytes]:
        """Passes lines on. Raises `ValueError`, at the end at the latest, if there isn't one for each record in turn."""
        wanted = iter(self._numbers)
        for line in lines:
            expected = next(wanted, None)
            if expected is None or not line.endswith(end_of(expected)):
                instead = "at its end" if expected is None else f"in place of record {expected}"
                raise ValueError(f"there is a line of record {number_of(line)} {instead}")
            self._digest.update(line)
            self._bytes += len(line)
            yield line
        missing = next(wanted, None)
        if missing is not None:
            raise ValueError(f"there is no line of record {missing}")

    def facts(self) -> dict[str, Any]:
        """Of all lines."""
        return {"bytes": self._bytes, "sha256": self._digest.hexdigest()}
