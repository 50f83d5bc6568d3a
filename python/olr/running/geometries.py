"""The answers of a run as rows with geometries: those that `olr-tools match` writes, part by part."""

from collections.abc import Iterable, Iterator, Sequence
from contextlib import ExitStack
from pathlib import Path
from typing import NamedTuple

from olr.client.map_client import Map
from olr.matching.chunks import Answered, chunks_of
from olr.matching.columns import ANSWERS, PIECES
from olr.matching.writing import (
    Output,
    Where,
    has_geometries,
    require_writable,
    writing_rows,
)
from olr.messages.message import Message
from olr.messages.message_file import MessageFile
from olr.model.objects import line_of
from olr.model.questions import What
from olr.progress import watched
from olr.running.asked_map import AskedMap
from olr.running.message_notes import MessageNotes, notes_of
from olr.running.question import Question

Line = tuple[bytes, str]
"""A line of a part, and the text of its reference."""


class Geometries(NamedTuple):
    """The files of rows that are asked for."""

    answers: Path | None
    """With a row for each matching or place."""
    pieces: Path | None
    """With a row for each piece of a line."""
    where: Where
    inputs: Sequence[Path]
    messages: MessageFile | None = None
    """Those of the run, if they may have more than their lines say: members that are kept, which are known, or own faults."""

    def outputs(self, question: What) -> list[Output]:
        """These files with their columns."""
        kept = {} if self.messages is None else self.messages.kept
        answers = [Output(one, question, ANSWERS).keeping(kept) for one in (self.answers,) if one]
        return answers + ([] if self.pieces is None else [Output(self.pieces, "pieces", PIECES)])

    def require_writable(self) -> None:
        """Raises `ToolError` if a file can't be written there."""
        for output in self.outputs("match"):
            require_writable(output.file, self.where, self.inputs)


class Written(NamedTuple):
    """What was written."""

    files: Sequence[tuple[Path, int]]
    """Each file, and how many rows it has."""
    cut_off: int
    """How many answers may lack a place that would be shown: looking was cut off before."""


def write_geometries(
    asked: Geometries, question: Question, map: AskedMap, parts: Sequence[Iterable[Line]]
) -> Written:
    """Writes the rows of the lines of parts, one part behind the other. Raises `ToolError` if a file can't be written, or reading the parts or
    the map does, and `MapRefused` if the map isn't that of the question: then all files are as they were.
    """
    network = None
    if asked.pieces is not None and has_geometries(asked.pieces):
        network = map.network(question.store)
    outputs = asked.outputs(question.what)
    cut_off = 0
    with ExitStack() as stack:
        sources = stack.enter_context(Map.of_folder(map.path))
        own = asked.messages
        notes = None if own is None else stack.enter_context(notes_of(own))
        sinks = [
            stack.enter_context(writing_rows(one, asked.where, asked.inputs)) for one in outputs
        ]
        for part in watched(parts, "parts written as rows", len(parts)):
            answered = _answered(part, None if network is None else network.digest, notes)
            for chunk in chunks_of(answered, sources):
                cut_off += chunk.cut_off()
                for output, sink in zip(outputs, sinks):
                    rows = chunk.rows() if output.columns is ANSWERS else chunk.pieces(network)
                    sink.add(chunk.items, rows)
    files = [(output.file, sink.rows) for output, sink in zip(outputs, sinks)]
    return Written(files, cut_off)


def _answered(
    lines: Iterable[Line], digest: str | None, notes: MessageNotes | None
) -> Iterator[Answered[Message]]:
    """The answers of lines, with the messages of their records, of which some have faults of their own."""
    for line, reference in lines:
        key, record, answer = line_of(line, digest)
        message = Message(record, key, reference)
        if notes is not None:
            message = notes.noted(message)
        yield Answered(message, message.answer(answer))
