"""Texts of GeoJSON with the columns of docs/COLUMNS.md: a collection about one reference, and lines about many (RFC 8142)."""

from collections.abc import Sequence
from io import BufferedRandom, TextIOWrapper
from typing import cast

from olr.asking.records import Answered
from olr.errors import ProgramEnded
from olr.matching import chunks
from olr.matching.chunks import Chunk
from olr.matching.columns import IN_FRONT
from olr.matching.rows import Ground
from olr.matching.tables import values_of
from olr.matching.texts import GeoJson, features_of
from olr.messages.message import Message
from olr.model.answers import Candidates
from olr.model.fault import Fault
from olr.model.objects import read_answer
from olr.model.questions import OfReference, What
from olr.serving.limits import MIB
from olr.serving.tasks import FeaturesTask

BEFORE = "\x1e"
"""Stands before each line."""
MOST_ANSWER = 4 * MIB
"""Bytes of an answer of the program, with shapes, of which lines are made: making them takes some ten times as much memory."""
TOO_LARGE = Fault("AnswerTooLarge")


def write(task: FeaturesTask, ground: Ground, file: BufferedRandom) -> None:
    """Writes a collection: a feature for each matching, or for each place that is shown, the likeliest one first; or one without a
    geometry. Raises `ToolError` and `OSError`."""
    counted: chunks.Counted = None
    if isinstance(task.candidates, Fault):
        counted = task.candidates
    else:
        found = read_answer("candidates", task.candidates, None)
        assert isinstance(found, Candidates)
        counted = found
    answer = read_answer(task.what, task.answer, None)
    rows = Chunk([chunks.Answered(None, answer, counted)], ground).rows()
    stream = TextIOWrapper(file, encoding="utf-8", newline="")
    written = GeoJson(stream, task.what)
    written.add(rows.values, rows.shapes)
    written.end()
    stream.detach()


def lines_of(some: Sequence[Answered], ground: Ground, what: OfReference) -> bytes:
    """The features of records, by what the program answered to them. Raises `ToolError`."""
    try:
        answered = [_answered(one, cast(What, what)) for one in some]
    except ValueError as error:
        raise ProgramEnded(f"the program wrote what is no answer: {error}") from error
    rows = Chunk(answered, ground).rows()
    front = values_of(IN_FRONT, [answered[number].item for number in rows.answers])
    features = features_of({**front, **rows.values}, rows.shapes)
    return "".join(f"{BEFORE}{feature}\n" for feature in features).encode()


def _answered(one: Answered, what: What) -> chunks.Answered[Message]:
    record = one.record
    message = Message(record.number, record.key(), record.text().decode())
    fault = record.fault() or one.fault
    if fault is not None:
        return chunks.Answered(message, Fault(fault))
    if len(one.answer) > MOST_ANSWER:
        return chunks.Answered(message, TOO_LARGE)
    return chunks.Answered(message, read_answer(what, one.answer, None))
