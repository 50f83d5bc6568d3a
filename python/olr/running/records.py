"""Messages as records of `olr batch` (docs/specification/batch.md): each with its number, and the bytes that it was read from."""

import hashlib
from collections.abc import Iterable, Iterator
from itertools import chain, islice
from pathlib import Path

from olr.asking.records import Record
from olr.content import Content, Stamp
from olr.errors import ToolError
from olr.messages.message import Message, Reading
from olr.messages.opening import name_of
from olr.messages.reading import messages_of
from olr.vector.whole import beside

END = b"\r\n"
"""What is written behind a record: whatever its last byte is, just this is taken off again."""
NOTHING = b" "
"""The record of a message without a key and a text: an empty one would have no line."""


def read_records(file: Path, reading: Reading, name: str | None = None) -> Iterator[Record]:
    """The records of a file of messages. Those of lines have the bytes that `olr batch` would read. It holds one of them at a time.
    Raises `ToolError`, with the `name` of the file: at once if the first record shows what is wrong.
    """
    called = name or name_of(file)
    messages = messages_of(file, reading, called, errors="surrogateescape")
    records = (_record(message, called) for message in messages)
    return chain(list(islice(records, 1)), records)


def content_of(file: Path) -> Content:
    """What a file of messages has in it: of a Shapefile also its table, which has the references. Raises `ToolError`."""
    found = Content.of(file)
    table = beside(file, ".dbf") if file.suffix.lower() == ".shp" else None
    if table is None:
        return found
    more = Content.of(table)
    digest = hashlib.sha256(f"{found.sha256}{more.sha256}".encode()).hexdigest()
    return Content(found.bytes + more.bytes, digest)


def of_one_edition(
    records: Iterable[Record], file: Path, stamp: Stamp, name: str
) -> Iterator[Record]:
    """Records of a file that had this stamp when its content was compared. Raises `ToolError`, with the `name` of the file, behind the
    last of them if it has another one then, and as reading them does."""
    yield from records
    if Stamp.of(file) != stamp:
        raise ToolError(f"{name} changed while it was read: begin again when it is whole")


def _record(message: Message, name: str) -> Record:
    """A message as a record, in the bytes that it was read from. Raises `ToolError` for a key that no record can have."""
    number, key, reference = message[:3]
    if key is None:
        return Record(number, reference.encode("utf-8", "surrogateescape") or NOTHING)
    if "\t" in key or "\n" in key:
        about = f"{name}: the key of record {number} has a tab or a line end"
        raise ToolError(f"{about}, and a key of olr batch hasn't: name another one by --key")
    return Record(number, f"{key}\t{reference}".encode("utf-8", "surrogateescape"))


def reference_of(data: bytes) -> str:
    """The text of a record: what stands behind its first tab, or all of it. What isn't ASCII is in no reference, and may be other letters
    here."""
    before, tab, behind = data.partition(b"\t")
    return (behind if tab else before).decode("latin-1")
