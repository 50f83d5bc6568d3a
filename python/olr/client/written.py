"""Answers that were written to a file, by `olr-tools run --join` or by `olr batch`: `olr.answers`."""

from collections.abc import Iterator
from pathlib import Path
from typing import NamedTuple

from olr.asking.program import PathLike
from olr.errors import ToolError, readable
from olr.model.answers import AnswerOrFault
from olr.model.objects import line_of

BUFFER_BYTES = 1 << 20


class Answered(NamedTuple):
    """The answer to a record."""

    key: str | None
    """The record's key, or None if it has none."""
    record: int
    """Its number in the file of messages, from 1."""
    answer: AnswerOrFault


def answers(file: PathLike) -> Iterator[Answered]:
    """The lines of a file that `olr-tools run --join` wrote, or `olr batch`: answers to `match`, `places`, `why` or `candidates`, and
    faults, as those of `Map.answers`, with the key and the number of each record. One line is read at a time.

    The pieces of these answers don't know of which version of a map they are. Raises `ToolError` at once if the file can't be
    read, and later at a line that isn't one.

    >>> import olr, pathlib
    >>> written = pathlib.Path("answers.jsonl").write_text('{"answer":null,"fault":"BadLength 12","key":"m5","record":5}')
    >>> [(line.key, line.record, line.answer.text) for line in olr.answers("answers.jsonl")]
    [('m5', 5, 'BadLength 12')]
    """
    path = Path(file)
    with readable(path), path.open("rb"):
        return _answers(path)


def _answers(path: Path) -> Iterator[Answered]:
    """The lines of a file. Raises `ToolError`."""
    with readable(path), path.open("rb", buffering=BUFFER_BYTES) as stream:
        for number, line in enumerate(stream, 1):
            try:
                yield Answered(*line_of(line))
            except ValueError as error:
                about = f"{path}: line {number} isn't an answer of olr-tools run or olr batch"
                raise ToolError(f"{about}: {error}") from error
