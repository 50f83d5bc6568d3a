"""Where a file of JSON has its references, if that wasn't said."""

import io
import json
import shlex
import sys
from collections import Counter
from collections.abc import Iterator
from contextlib import suppress
from functools import lru_cache
from itertools import chain
from pathlib import Path
from typing import NamedTuple

from olr.content import Stamp
from olr.errors import MissingModule, ToolError
from olr.messages.message import REF, Base64
from olr.messages.opening import opened
from olr.messages.paths import member_of
from olr.messages.pieces import stream_of
from olr.messages.texts import looks_like_a_reference, shown
from olr.messages.walking import Documents, Places

MOST_BYTES = 16 << 20
"""So much of a stream is looked through, and held meanwhile. A file that can be read twice is looked through as a whole."""
MOST_PATHS = 10
"""More paths aren't counted."""
SEPARATOR = b"\x1e"
"""What each record of a sequence begins with (RFC 8142)."""
USUAL = {
    prefix + REF for prefix in ("", "[].", "properties.", "features[].", "features[].properties.")
}
"""Where nobody has to say that references are, as their member has the usual name."""


class Found(NamedTuple):
    """Where references are."""

    path: str
    is_usual: bool


def has_usual_member(line: bytes) -> bool:
    """Whether a line is an object with a reference where it usually is, or something else in its place."""
    with suppress(ValueError, RecursionError):
        return member_of(json.loads(line.removeprefix(SEPARATOR)), REF) is not None
    return False


@lru_cache(maxsize=16)
def found_in_file(file: Path, stamp: Stamp, name: str, base64: Base64) -> str | None:
    """The path of the references in all of a file, in such base64, which is said on standard error unless it is the usual one: once for each
    edition of the file, which the stamp tells. None if there is none. Raises `OSError`, and `ToolError` if there are several, with the `name`.
    """
    with opened(file) as pieces:
        return _said(_found(pieces, name, base64), name)


def found_in_stream(
    pieces: Iterator[bytes], name: str, base64: Base64, is_said: bool
) -> tuple[str | None, Iterator[bytes]]:
    """The path of the references in the first bytes of a stream, or None, and the pieces of the stream as before. Says and raises what
    `found_in_file` does."""
    held: list[bytes] = []

    def taken() -> Iterator[bytes]:
        size = 0
        for piece in pieces:
            held.append(piece)
            size += len(piece)
            yield piece
            if size > MOST_BYTES:
                break

    found = _found(taken(), name, base64)
    if is_said:
        _said(found, name)
    return found and found.path, chain(held, pieces)


def _said(found: Found | None, name: str) -> str | None:
    """The path of what was found, which is said unless it is the usual one."""
    if found is not None and not found.is_usual:
        print(f"olr-tools: {name}: read with --ref {_quoted(found.path)}", file=sys.stderr)
    return found and found.path


def _found(pieces: Iterator[bytes], name: str, base64: Base64) -> Found | None:
    """Where references are, or None. What isn't JSON ends the search: whoever reads it then says so. Raises `ToolError`."""
    stream = stream_of(piece.replace(SEPARATOR, b" ") for piece in pieces)
    counts: Counter[str] = Counter()
    try:
        for place in _places_of_references(stream, name, base64):
            if place in USUAL:
                return Found(place, True)
            counts[place] += 1
            if len(counts) > MOST_PATHS:
                break
    except MissingModule:
        raise
    except ToolError:
        pass
    if len(counts) < 2:
        return next((Found(path, False) for path in counts), None)
    listed = (f"--ref {_quoted(path)} ({count:,})" for path, count in counts.most_common())
    raise ToolError(f"{name} has references in several members: choose one: {', '.join(listed)}")


def _places_of_references(stream: io.BufferedReader, name: str, base64: Base64) -> Iterator[str]:
    """The places of what looks like a reference, and of whatever is where one usually is."""
    places = Places(name)
    for event, value in Documents(stream, name).events():
        place = places.of(event, value)
        if event == "string":
            if place in USUAL or looks_like_a_reference(value, base64):
                yield place
        elif place in USUAL and event not in ("map_key", "null"):
            yield place


def _quoted(path: str) -> str:
    return shown([shlex.quote(path)])
