"""Lines of a key, a tab and a reference, or of a reference alone, as `olr batch` splits and counts them
(docs/specification/batch.md)."""

import io
from collections.abc import Iterator

from olr.asking.records import Record, Splitter
from olr.messages.message import Message
from olr.messages.opening import not_utf_8

PIECE_BYTES = 1 << 16


def messages_of_lines(stream: io.BufferedReader, errors: str, name: str) -> Iterator[Message]:
    """The messages of a stream. It holds some of them at a time. `errors` says what becomes of bytes that aren't UTF-8, as for
    `bytes.decode`. Raises `OSError`, and `ToolError`, with the `name` of the file, for bytes that aren't UTF-8.
    """
    for number, data in _records(stream):
        try:
            text = data.decode("utf-8", errors)
        except UnicodeDecodeError as error:
            raise not_utf_8(f"{name}: line {number}") from error
        before, tab, behind = text.partition("\t")
        yield Message(number, before, behind) if tab else Message(number, None, before)


def _records(stream: io.BufferedReader) -> Iterator[Record]:
    """The records of a stream, as they come."""
    splitter = Splitter()
    while piece := stream.read1(PIECE_BYTES):
        yield from splitter.receive(piece)
    yield from splitter.end()
