"""The rows of `POST /rows`: a line of JSON for each record, with its likeliest place and how probable that is."""

import json
from typing import Any

from olr.asking.records import Answered
from olr.confidence.sentences import no_probabilities
from olr.errors import ProgramEnded
from olr.matching.columns import share, whole
from olr.model.answers import Places
from olr.model.fault import Fault
from olr.model.objects import read_answer
from olr.model.reasons import sentence_of
from olr.serving.tasks import LinesTask


def lines_of(task: LinesTask) -> bytes:
    """The rows of records, by what the program answered to them. Raises `ToolError`."""
    try:
        answers = [_answer_of(one) for one in task.some]
    except ValueError as error:
        raise ProgramEnded(f"the program wrote what is no answer: {error}") from error
    rows = (
        {
            "record": one.record.number,
            "key": one.record.key(),
            **_row(answer),
            "no_probabilities": _note(answer, task),
        }
        for one, answer in zip(task.some, answers)
    )
    return b"".join(
        json.dumps(row, separators=(",", ":"), ensure_ascii=False).encode() + b"\n" for row in rows
    )


def _answer_of(one: Answered) -> Places | Fault:
    """The answer to a record. Raises `ValueError` if it isn't one."""
    fault = one.record.fault() or one.fault
    if fault is not None:
        return Fault(fault)
    answer = read_answer("places", one.answer, None)
    assert isinstance(answer, Places)
    return answer


def _note(answer: Places | Fault, task: LinesTask) -> str | None:
    """Why an answer has no probabilities, where it was asked for with others than the numbers of the confidence."""
    if isinstance(answer, Fault) or not answer.differs:
        return None
    return no_probabilities(answer.differs, task.asked.numbers(), task.confidence)


def _row(answer: Places | Fault) -> dict[str, Any]:
    """Columns of docs/COLUMNS.md, of the likeliest place, and whether there may be others that weren't looked at."""
    found = None if isinstance(answer, Fault) else answer
    first = found.places[0] if found else None
    return {
        "verdict": "fault" if found is None else found.verdict,
        "probability": None if first is None else share(first.probability),
        "none_of_these": None if found is None else share(found.none_of_these),
        "reasons": None if first is None else sentence_of(first.reasons),
        "total": None if first is None else first.matching.total,
        "margin": None if found is None else found.margin,
        "turns_back": None if first is None else whole(first.matching.turns_back),
        "cut_off": found is not None and bool(found.cut),
        "fault": answer.text if isinstance(answer, Fault) else None,
    }
