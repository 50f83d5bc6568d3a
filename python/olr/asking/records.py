"""The records of a feed, as `olr batch` reads them: lines of a key, a tab and a reference, or of a reference alone
(docs/specification/batch.md). Who asks about them by numbers gives their lines what the program would give."""

import json
from typing import NamedTuple

from olr.model.questions import text_of_record

MOST_RECORD_BYTES = 65_536
"""Of a record without the carriage return at its end."""
LONG_RECORD = b"x" * (MOST_RECORD_BYTES + 1)
"""Stands for each record that is longer: all of them have the same fault, and no key."""


class Record(NamedTuple):
    """A record that isn't empty."""

    number: int
    """From 1, empty ones counted."""
    data: bytes
    """Without the line feed and the carriage return at its end."""

    def fault(self) -> str | None:
        """Why the program doesn't read it."""
        if len(self.data) > MOST_RECORD_BYTES:
            return "LongRecord"
        try:
            self.data.decode()
        except UnicodeDecodeError:
            return "NotText"
        return None

    def text(self) -> bytes:
        """The text of the reference: what stands behind the first tab, or all of it; an empty one where the program doesn't read it."""
        before, tab, behind = self.data.partition(b"\t")
        return text_of_record(behind if tab else before) if self.fault() is None else b""

    def key(self) -> str | None:
        """What stands before the first tab: None for a record without one, and for one that isn't read."""
        before, tab, _ = self.data.partition(b"\t")
        return before.decode() if tab and self.fault() is None else None

    def line(self, answer: bytes, fault: str | None) -> bytes:
        """Its line, with the JSON of what was answered about its text, or `null` and a fault: that of the record, if it has one."""
        own = self.fault()
        said, key = _json_of(own or fault), _json_of(self.key())
        answer = b"null" if own else answer
        return b'{"answer":%b,"fault":%b,"key":%b,"record":%d}\n' % (answer, said, key, self.number)


def _json_of(text: str | None) -> bytes:
    """A text as JSON, or `null`."""
    return b"null" if text is None else json.dumps(text, ensure_ascii=False).encode()


class Answered(NamedTuple):
    """A record, and the JSON of its answer, or `null` and a fault."""

    record: Record
    answer: bytes
    fault: str | None

    def line(self) -> bytes:
        """Its line, as the program writes it."""
        return self.record.line(self.answer, self.fault)


class Splitter:
    """Bytes that come in pieces, as records. It holds the piece and the unfinished record, or of one that is too long as much as shows it."""

    def __init__(self) -> None:
        self._number = 0
        self._unfinished = b""

    def is_within_record(self) -> bool:
        """Whether the end of a record is still to come."""
        return bool(self._unfinished)

    def receive(self, piece: bytes) -> list[Record]:
        """The records that end in a piece."""
        *lines, rest = (self._unfinished + piece).split(b"\n")
        # What follows in a record that is too long doesn't matter, and its end may be a carriage return.
        self._unfinished = rest if len(rest) <= MOST_RECORD_BYTES + 1 else LONG_RECORD + b" "
        return [record for line in lines if (record := self._record(line)) is not None]

    def end(self) -> list[Record]:
        """The record at the end, if no line feed stands behind it."""
        record = self._record(self._unfinished)
        return [] if record is None else [record]

    def _record(self, line: bytes) -> Record | None:
        """The record of a line, which is counted: None for an empty one."""
        self._number += 1
        data = line.removesuffix(b"\r")
        return (
            Record(self._number, data if len(data) <= MOST_RECORD_BYTES else LONG_RECORD)
            if data
            else None
        )
