"""Files of messages, in all formats, as messages one after the other."""

import io
from collections.abc import Iterable, Iterator
from contextlib import contextmanager
from itertools import chain
from pathlib import Path
from typing import Literal

from olr.asking.program import PathLike
from olr.errors import ToolError, readable
from olr.content import Stamp
from olr.messages.binary import BINARY, binary_format_of, refuse_binary
from olr.messages.detecting import format_of, look_ahead, with_references
from olr.messages.lines import messages_of_lines
from olr.messages.documents import (
    messages_of_documents,
    messages_of_objects,
    messages_of_sequence,
)
from olr.messages.looking import found_in_file, found_in_stream, has_usual_member
from olr.messages.message import (
    FORMATS,
    JSON,
    TABLES,
    Base64,
    Format,
    Message,
    Reading,
)
from olr.messages.opening import (
    STANDARD_INPUT,
    is_read_twice,
    name_of,
    opened,
    pieces_of,
    text_lines,
)
from olr.messages.packed import Unpackable
from olr.messages.pieces import stream_of
from olr.messages.tables import messages_of_table
from olr.messages.texts import plain_base64, require_base64
from olr.model.reference import moved

WANTED = "name a file of messages, or ask olr about one reference"
"""What to do where there is no file."""
Errors = Literal["strict", "surrogateescape"]


def read_messages(
    file: PathLike,
    ref: str | None = None,
    key: str | None = None,
    format: Format | None = None,
    base64: Base64 = "plain",
) -> Iterator[tuple[str | None, str]]:
    """The keys and the references of a file, or of standard input for `-`, one after the other. A record without a key has None.

    The file has lines of a key, a tab and a reference, or is CSV, JSON, XML or a table, packed or not; docs/MESSAGES.md says how its format is
    detected, unless `format` says it. `ref` and `key` name the columns or members. With `base64="url"` the references in the file are in base64
    for URLs: those that are given are plain. `olr.read_feed` gives all that is read of a record. Raises `ToolError` if the file can't be read, or
    it isn't clear what it is, and `ValueError` for what is no format or no base64. A file that isn't there is an error at once.

    >>> import olr
    >>> dict(olr.read_messages("examples/messages.tsv"))["m2"]
    'CwVF+yN2yhpnBAFdAAsaFg=='
    """
    messages = read_feed(file, ref, key, format, base64)
    return ((message.key, message.reference) for message in messages)


def read_feed(
    file: PathLike,
    ref: str | None = None,
    key: str | None = None,
    format: Format | None = None,
    base64: Base64 = "plain",
    keep: str | Iterable[str] = (),
) -> Iterator[Message]:
    """The messages of a file, or of standard input for `-`, one after the other, as `olr.read_messages` reads them, each with all that was read
    of it: its number, its key, its reference, a fault of its own, and what is kept of the record.

    `keep` names the columns, members or elements of a record that are kept; `"all"` keeps all but the reference and the key. Raises as
    `olr.read_messages`, and `ToolError` for a column that isn't there.

    >>> import olr
    >>> [message.record for message in olr.read_feed("examples/messages.tsv") if message.key == "m2"]
    [2]
    """
    if format is not None and format not in FORMATS:
        raise ValueError(f"{format!r} is no format: give {', '.join(FORMATS)}")
    require_base64(base64)
    kept = (keep,) if isinstance(keep, str) else tuple(keep)
    path = Path(file)
    if path != STANDARD_INPUT:
        with readable(path, WANTED):
            path.stat()
    return messages_of(path, Reading(format, ref, key, kept, base64))


def messages_of(
    file: Path, reading: Reading, name: str | None = None, errors: Errors = "strict"
) -> Iterator[Message]:
    """The messages of a file, empty records left out. It holds one of them at a time.

    Errors have the `name`, by default that of the file. `errors` says what becomes of bytes of lines that aren't UTF-8, as for
    `bytes.decode`. Raises `ToolError` if the file can't be read, or it isn't clear what it is.
    """
    called = name or name_of(file)
    with _of_file(called):
        if (kind := binary_format_of(file, reading, called)) is not None:
            yield from _checked(BINARY[kind](file, reading, called), kind, reading, called)
            return
        with opened(file) as pieces:
            yield from _messages(pieces, reading, called, errors, file)


def messages_in(stream: io.BufferedIOBase, reading: Reading, name: str) -> Iterator[Message]:
    """The messages of a stream, as `messages_of` has those of a file. Errors have the `name`. Raises `ToolError`."""
    with _of_file(name):
        yield from _messages(pieces_of(stream), reading, name, "strict")


def format_in(file: Path, reading: Reading, name: str | None = None) -> Format:
    """The format of a file, as it was said or as its first line shows it. Raises `ToolError` if the file can't be read, or it isn't
    clear."""
    called = name or name_of(file)
    with _of_file(called):
        if (kind := binary_format_of(file, reading, called)) is not None:
            return kind
        with opened(file) as pieces:
            return format_of(look_ahead(pieces)[1], reading, called)


@contextmanager
def _of_file(name: str) -> Iterator[None]:
    """Raises `ToolError`, with the name of a file, for what reading it raises."""
    try:
        with readable(name, WANTED):
            yield
    except Unpackable as error:
        raise ToolError(f"{name} {error}") from error
    except UnicodeDecodeError as error:
        found = f"{name} isn't UTF-16, as its first bytes say"
        raise ToolError(f"{found}: convert it, such as by iconv -f LATIN1 -t UTF-8") from error


def _messages(
    pieces: Iterator[bytes], reading: Reading, name: str, errors: Errors, file: Path | None = None
) -> Iterator[Message]:
    """The messages in pieces of bytes: those of a file, or of a stream about which nothing is said."""
    seen, line = look_ahead(pieces)
    if reading.format is None:
        refuse_binary(seen, name)
    kind = format_of(line, reading, name)
    if kind in TABLES:
        raise ToolError(f"{name} can't be read as {kind}: name the file itself, unpacked")
    if kind == "tab" and (reading.names_columns() or reading.keep) and line:
        options = "--ref, --key and --keep" if reading.keep else "--ref and --key"
        raise ToolError(f"{name} has no names of columns or members: leave out {options}")
    pieces = chain([seen], pieces)
    if kind in JSON and reading.ref is None and not has_usual_member(line):
        if file is not None and is_read_twice(file):
            path = found_in_file(file, Stamp.of(file), name, reading.base64)
        else:
            path, pieces = found_in_stream(pieces, name, reading.base64, file is not None)
        reading = reading._replace(ref=path)
    found = _of_format(kind, stream_of(pieces), reading, name, errors)
    yield from _checked(found, kind, reading, name)


def _checked(
    messages: Iterator[Message], kind: Format, reading: Reading, name: str
) -> Iterator[Message]:
    """Messages with references in plain base64, of which one of the first looks like one, if it wasn't said what the file is."""
    base64 = reading.base64
    if base64 != "plain":
        messages = (one._replace(reference=plain_base64(one.reference, base64)) for one in messages)
    if any(reading.shift):
        messages = (
            one._replace(reference=moved(one.reference, *reading.shift)) for one in messages
        )
    return messages if reading.format is not None else with_references(messages, kind, name)


def _of_format(
    kind: Format, stream: io.BufferedReader, reading: Reading, name: str, errors: Errors
) -> Iterator[Message]:
    """The messages of a stream in a format."""
    if kind == "tab":
        return messages_of_lines(stream, errors, name)
    if kind == "xml":
        # Who reads other messages starts sooner without it.
        from olr.messages.elements import messages_of_xml

        return messages_of_xml(stream, reading, name)
    if kind == "csv":
        return messages_of_table(text_lines(stream, "", name), reading, name)
    if kind == "jsonl":
        return messages_of_objects(text_lines(stream, "\n", name), reading, name)
    of_stream = messages_of_sequence if kind == "jsonseq" else messages_of_documents
    return of_stream(stream, reading, name)
