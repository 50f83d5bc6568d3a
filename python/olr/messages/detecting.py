"""Which format a file of messages has, by its first line, and whether what was read can be meant.

What isn't clear is an error that names the option to give.
"""

import json
from collections.abc import Iterator, Sequence
from contextlib import suppress

from olr.asking.records import MOST_RECORD_BYTES
from olr.errors import ToolError
from olr.messages import tables
from olr.messages.documents import is_collection
from olr.messages.first import with_one
from olr.messages.looking import SEPARATOR
from olr.messages.message import JSON, REF, Format, Message, Reading
from olr.messages.texts import (
    begins_like_a_reference,
    looks_like_a_reference,
    names_nothing,
    shown,
)
from olr.model.questions import BLANKS

BLANK_BYTES = BLANKS.encode()
NOT_TEXT = "\ufffd"
"""Stands for bytes that aren't UTF-8."""


def look_ahead(pieces: Iterator[bytes]) -> tuple[bytes, bytes]:
    """Takes pieces until a line that isn't blank has ended, or is longer than records are. Answers all that was taken, and that
    line: an empty one if there is none."""
    seen = b""
    for piece in pieces:
        seen += piece
        if b"\n" in seen.lstrip(BLANK_BYTES) or len(seen) > 2 * MOST_RECORD_BYTES:
            break
    return seen, next((line for line in seen.split(b"\n") if line.strip(BLANK_BYTES)), b"")


def format_of(line: bytes, reading: Reading, name: str) -> Format:
    """The format of a file whose first line that isn't blank is this one. Raises `ToolError` if it isn't clear."""
    if reading.format is not None or not line:
        return reading.format or "tab"
    whole = line.decode("utf-8", "replace")
    header = whole.strip("\r").partition("\r")[0]
    is_header = tables.has_column(header, reading.ref or REF)
    before, tab, behind = whole.partition("\t")
    text = (behind if tab else before).strip(BLANKS)
    if begins_like_a_reference(text) and not (is_header and reading.names_columns()):
        return "tab"
    if whole.lstrip(BLANKS)[:1] == "<":
        return "xml"
    if (kind := _json_in(line)) is not None and "}\r{" not in whole:
        return kind
    if is_header:
        return "csv"
    has_returns = header != whole.strip("\r")
    if not text or names_nothing(text) or (len(line) > MOST_RECORD_BYTES and not has_returns):
        # A record that will be refused: no column has such a name.
        return "tab"
    raise _unclear(header, has_returns, reading, name)


def _json_in(line: bytes) -> Format | None:
    """The format of JSON of which this is the first line, if it is some: an object alone on it is one of many."""
    opening = line.lstrip(BLANK_BYTES)[:1]
    if opening == SEPARATOR:
        return "jsonseq"
    if opening not in (b"[", b"{"):
        return None
    with suppress(ValueError, RecursionError):
        if isinstance(json.loads(line), dict) and not is_collection(line):
            return "jsonl"
    return "json"


def _unclear(header: str, has_returns: bool, reading: Reading, name: str) -> ToolError:
    """The error of a file that begins with this line, which may have carriage returns behind it and then more."""
    if NOT_TEXT in header or "\0" in header:
        likely = "UTF-16LE" if "\0" in header else "LATIN1"
        return ToolError(f"{name} isn't UTF-8: convert it, such as by iconv -f {likely} -t UTF-8")
    if has_returns:
        found = f"{name} has carriage returns alone in its first line"
        return ToolError(f"{found}: if lines end there convert it, such as by tr '\\r' '\\n'")
    columns = tables.columns_of(header)
    if any(looks_like_a_reference(column, reading.base64) for column in columns):
        return ToolError(f"{name} has no header: write one above its first line, such as key,ref")
    wanted = f"{name} has no column {reading.ref or REF}: name it by --ref: {shown(columns)}"
    if reading.names_columns():
        return ToolError(wanted)
    return ToolError(f"{wanted}; or say --format tab if its first line is a record")


def with_references(messages: Iterator[Message], kind: Format, name: str) -> Iterator[Message]:
    """Messages, if one of the first hundred looks as if it had a reference. Raises `ToolError`."""

    def refusal(held: Sequence[Message]) -> ToolError:
        records = "record" if len(held) == 1 else f"{len(held)} records"
        of_urls = [one.reference for one in held if looks_like_a_reference(one.reference, "url")]
        text = shown((of_urls or [held[0].reference])[:1])
        if of_urls:
            found = f"{name} has base64 for URLs in its first {records}, as {text!r}"
            return ToolError(f"{found}: say --base64 url, or --format {kind} if this is meant")
        found = f"{name} has no reference in its first {records}, but {text!r}"
        where = dict.fromkeys(JSON, "name another member") | {
            "tab": "if it has columns, name one",
            "xml": "name another element",
        }
        option = where.get(kind, "name another column")
        return ToolError(f"{found}: {option} by --ref, or say --format {kind} if this is meant")

    return with_one(
        messages,
        lambda message: message.fault is not None or looks_like_a_reference(message.reference),
        refusal,
    )
