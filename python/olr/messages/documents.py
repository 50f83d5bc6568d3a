"""Files of JSON as messages: lines, sequences, and documents in any shape."""

import io
import json
import re
from collections.abc import Iterable, Iterator
from typing import Any

from olr.errors import ToolError
from olr.messages.looking import SEPARATOR
from olr.messages.members import Element, messages_of_elements
from olr.messages.message import REF, Message, Reading
from olr.messages.opening import not_utf_8
from olr.messages.paths import Path, elements_in
from olr.messages.pieces import pieces_as_they_come
from olr.messages.walking import Documents

COLLECTION = re.compile(rb'"type"\s*:\s*"FeatureCollection"')
FEATURES = "features[]"


def messages_of_objects(text: Iterable[str], reading: Reading, name: str) -> Iterator[Message]:
    """The messages of JSON lines. It holds one of them at a time. Raises `ToolError`, with the `name` of the file."""
    return _messages(_on_lines(text, f"{name}: line"), reading, name, "line")


def messages_of_sequence(
    stream: io.BufferedReader, reading: Reading, name: str
) -> Iterator[Message]:
    """The messages of a sequence of JSON texts (RFC 8142). It holds one of them at a time. Raises `OSError`, and `ToolError`, with the
    `name` of the file."""
    return _messages(_in_sequence(stream, f"{name}: record"), reading, name, "record")


def messages_of_documents(
    stream: io.BufferedReader, reading: Reading, name: str
) -> Iterator[Message]:
    """The messages of documents in any shape. It holds an element at a time. Raises `OSError`, and `ToolError`, with the `name` of the
    file."""
    path = Path.of(reading.ref or REF)
    if not path.elements and is_collection(stream.peek()):
        path = Path(FEATURES, path.member)
    values = enumerate(Documents(stream, name).values_at(path.elements), 1)
    place = f"{name}: element"
    return messages_of_elements((Element(*pair) for pair in values), path, reading, place)


def is_collection(text: bytes) -> bool:
    """Whether a text begins as a GeoJSON file of features."""
    return COLLECTION.search(text) is not None


def _messages(
    documents: Iterator[Element], reading: Reading, name: str, what: str
) -> Iterator[Message]:
    """The messages of documents that were read whole. Where a path leads to several of one, they are counted over all."""
    path = Path.of(reading.ref or REF)
    if not path.elements:
        return messages_of_elements(documents, path, reading, f"{name}: {what}")
    found = (one for document in documents for one in elements_in(document.value, path.elements))
    elements = (Element(number, value) for number, value in enumerate(found, 1))
    return messages_of_elements(elements, path, reading, f"{name}: element")


def _on_lines(text: Iterable[str], place: str) -> Iterator[Element]:
    """The values of lines that aren't blank."""
    for number, line in enumerate(text, 1):
        if line.strip():
            refusal = f"{place} {number} isn't JSON, of one object on each line"
            yield Element(number, _read(line, refusal))


def _in_sequence(stream: io.BufferedReader, place: str) -> Iterator[Element]:
    """The values behind separators."""
    number = 0
    for data in _separated(stream):
        if data.strip():
            number += 1
            try:
                text = data.decode()
            except UnicodeDecodeError as error:
                raise not_utf_8(f"{place} {number}") from error
            yield Element(number, _read(text, f"{place} {number} isn't JSON"))


def _separated(stream: io.BufferedReader) -> Iterator[bytes]:
    left = b""
    for piece in pieces_as_they_come(stream):
        *whole, left = (left + piece).split(SEPARATOR)
        yield from whole
    yield left


def _read(text: str, refusal: str) -> Any:
    """What JSON says. Raises `ToolError`."""
    try:
        return json.loads(text)
    except (ValueError, RecursionError) as error:
        reason = str(error)
        if isinstance(error, json.JSONDecodeError):
            reason = f"{error.msg} at character {error.pos + 1}"
        raise ToolError(f"{refusal}: {reason}: repair it, or give another --format") from error
