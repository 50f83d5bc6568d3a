"""The records of a CSV file, as `olr` reads them.

Fields end at commas, and records at CR, LF or both. Empty lines are skipped. A field that begins with a double quote goes on
to the next one that isn't doubled, whatever is between them; what follows it up to the comma belongs to the field. A byte
order mark at the front is dropped. Nothing is trimmed, and the bytes needn't be UTF-8.
"""

import csv
import io
import os
import sys
from collections.abc import Callable, Iterator
from typing import BinaryIO

BYTE_ORDER_MARK = b"\xef\xbb\xbf"
BUFFER = 1 << 16
STEP = 5000
"""So many records are read between two calls of `advance`."""


def allow_long_fields() -> None:
    """Lets the module csv read fields of any length, for the whole process: no reader has a limit of its own."""
    csv.field_size_limit(sys.maxsize)


def read_records(
    stream: BinaryIO, advance: Callable[[int], None] = lambda _: None
) -> Iterator[tuple[int, list[str]]]:
    """Each record with the number of the line of the file on which it begins, counted from 1.

    Each byte of a field is one character (Latin-1), so that any bytes can be read. `advance` is called with the number of bytes
    that were read since its last call. Raises `OSError` if the file can't be read.
    """
    allow_long_fields()
    start = stream.read(len(BYTE_ORDER_MARK))
    bytes_behind = _Joined(b"" if start == BYTE_ORDER_MARK else start, stream)
    text = io.TextIOWrapper(io.BufferedReader(bytes_behind, BUFFER), encoding="latin-1", newline="")
    reader = csv.reader(text)
    line, done = 1, 0
    for number, fields in enumerate(reader):
        if fields:
            yield line, fields
        line = reader.line_num + 1
        if number % STEP == 0:
            advance(bytes_behind.count - done)
            done = bytes_behind.count
    advance(bytes_behind.count - done)


def size_of(stream: BinaryIO) -> int:
    """The size of a file in bytes; 0 if it has none."""
    return os.fstat(stream.fileno()).st_size


class _Joined(io.RawIOBase):
    """Some bytes, and those of a stream behind them. `count` is how many were read."""

    def __init__(self, start: bytes, stream: BinaryIO) -> None:
        super().__init__()
        self._start, self._stream, self.count = start, stream, 0

    def readable(self) -> bool:
        return True

    def readinto(self, buffer: "memoryview") -> int:  # type: ignore[override]
        """Fills the buffer as far as bytes come, and answers how many."""
        if self._start:
            taken, self._start = self._start[: len(buffer)], self._start[len(buffer) :]
        else:
            taken = self._stream.read(len(buffer))
        buffer[: len(taken)] = taken
        self.count += len(taken)
        return len(taken)
