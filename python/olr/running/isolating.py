"""Records at which the program fails: each stands alone, and the others have their lines."""

import random
import sqlite3
from collections.abc import Container, Iterator, Sequence
from contextlib import closing

from olr.asking.exchange import Asked
from olr.asking.processes import AHEAD, Line, Processes
from olr.asking.records import Record
from olr.errors import ProgramEnded, TimedOut, ToolError
from olr.model.objects import RawLine
from olr.regions.sharing import unread

FEW, TRIED = 16, 8
"""Where the program fails in more records than FEW, so many of them are TRIED: it has to answer one."""
NO_REFERENCE = Record(1, b"no reference")
"""A record that the program refuses on each map."""
PROGRAM_FAILED, TIMED_OUT = "ProgramFailed", "TimedOut"
"""The faults of a record, asked alone: the program ended or wrote something else, or was waited for too long."""
FAILURES = PROGRAM_FAILED, TIMED_OUT


def isolated(
    processes: Processes, asked: Asked, records: Sequence[Record], none: Container[int] = ()
) -> Iterator[bytes]:
    """The lines of records. One at which the program fails has a fault that says so. `none` has the numbers of records that aren't references,
    as far as it is read here.

    Raises `ProgramEnded` and `TimedOut` where the program fails whatever it is asked, `MapRefused`, `ProgramNotFound`, and `ToolError` where
    it answers what is no reference.
    """
    is_the_program = False
    for record, line in zip(records, _lines(processes, asked, records), strict=True):
        if isinstance(line, ToolError):
            if not is_the_program:
                _require_program(processes, asked, records, line)
                is_the_program = True
            fault = TIMED_OUT if isinstance(line, TimedOut) else PROGRAM_FAILED
            yield record.line(b"null", fault)
        else:
            if line.fault is None and record.number in none:
                raise unread(f"record {record.number}")
            yield record.line(line.answer, line.fault)


def _lines(processes: Processes, asked: Asked, records: Sequence[Record]) -> Iterator[Line]:
    """The lines of the program: those with an answer have one in JSON. Raises as `isolated`."""
    texts = (asked.about(record.text()) for record in records)
    found = processes.lines(texts, asked.at_once(AHEAD), (ProgramEnded, TimedOut))
    with closing(sqlite3.connect(":memory:", check_same_thread=False)) as reader, closing(found):
        for line in found:
            if isinstance(line, RawLine) and line.fault is None and not _is_json(line, reader):
                line = ProgramEnded("the program wrote an answer that isn't JSON")
            yield line


def _is_json(line: RawLine, reader: sqlite3.Connection) -> bool:
    """Whether an answer is JSON in UTF-8. SQLite reads it, two to four times as fast as `json`, which makes objects."""
    try:
        text = line.answer.decode()
    except UnicodeDecodeError:
        return False
    (is_json,) = reader.execute("SELECT json_valid(?)", (text,)).fetchone()
    return bool(is_json)


def _require_program(
    processes: Processes, asked: Asked, records: Sequence[Record], failure: ToolError
) -> None:
    """Raises an error unless the program still reads the map, and answers one of some records. One that answers none would be started
    for each record."""
    (line,) = _lines(processes, asked, [NO_REFERENCE])
    if isinstance(line, ToolError):
        raise line
    if len(records) > FEW:
        some = random.Random(1).sample(records, TRIED)
        if all(isinstance(line, ToolError) for line in _lines(processes, asked, some)):
            raise failure
