"""JSON as a stream, by `ijson`: what begins, ends or is there, the place of each, and the values at one place."""

import codecs
import io
import sys
from collections.abc import Callable, Iterator
from typing import Any

from olr.errors import ToolError
from olr.extras import needed_by
from olr.messages.opening import not_utf_8
from olr.messages.paths import EACH

MOST_DEPTH = 200
"""Arrays and objects within each other. Those of feeds have ten or so."""
MOST_BYTES = 16 << 20
"""Of an element, which is held whole."""
PIECE_BYTES = 1 << 16

_AS_DIGITS = bytes(b"0"[0] if byte in b"0123456789" else b" "[0] for byte in range(256))

Event = tuple[str, Any]
"""What begins, ends or is there, in the words of `ijson.basic_parse`, and its value."""


class Places:
    """Where the events of documents are, as paths have it."""

    def __init__(self, name: str) -> None:
        self._name = name
        self._outer: list[str] = []
        self._place = ""

    def of(self, event: str, value: Any) -> str:
        """The place of the next event: of a name that of its member. Raises `ToolError` for values too deep within each other."""
        if event == "map_key":
            outer = self._outer[-1]
            self._place = f"{outer}.{value}" if outer else value
        elif event in ("end_map", "end_array"):
            self._place = self._outer.pop()
        elif event in ("start_map", "start_array"):
            place = self._place
            self._outer.append(place)
            if len(self._outer) > MOST_DEPTH:
                raise _too_deep(self._name)
            self._place += EACH if event == "start_array" else ""
            return place
        return self._place


class Documents:
    """The documents of a stream, one behind the other, in pieces."""

    def __init__(self, stream: io.BufferedIOBase, name: str) -> None:
        self._stream, self._name = stream, name
        self._decoder = codecs.getincrementaldecoder("utf-8")()
        self._lines, self._ends_of_piece = 1, 0
        self._held: int | None = None
        self._digits = b"0" * (sys.get_int_max_str_digits() + 1)
        self._tail = b""

    def read(self, size: int) -> bytes:
        """The next piece, for `ijson`. Raises `OSError`, and `ToolError` for what isn't UTF-8 and for an element that is too large."""
        piece = self._stream.read1(size) if size else b""
        self._lines += self._ends_of_piece
        self._ends_of_piece = piece.count(b"\n")
        self._require_numbers(piece)
        try:
            self._decoder.decode(piece)
        except UnicodeDecodeError as error:
            line = self._lines + error.object[: error.start].count(b"\n")
            raise not_utf_8(f"{self._name}: line {line}") from error
        if self._held is not None:
            self._held += len(piece)
            if self._held > MOST_BYTES:
                found = f"{self._name} has an element of more than {MOST_BYTES >> 20} MiB"
                raise ToolError(
                    f"{found}: say by --ref where its records are, such as records[].ref"
                )
        return piece

    def _require_numbers(self, piece: bytes) -> None:
        """Raises `ToolError` for more digits in a row than Python takes for a number: `ijson` would end the process."""
        digits = self._tail + piece.translate(_AS_DIGITS)
        if len(self._digits) > 1 and self._digits in digits:
            raise ToolError(
                f"{self._name} has a number of more than {len(self._digits) - 1:,} digits"
            )
        self._tail = digits[-len(self._digits) :]

    def events(self) -> Iterator[Event]:
        """The events of all documents. Raises `OSError` and `ToolError`."""
        with needed_by("reading JSON", "feeds"):
            import ijson
        try:
            yield from ijson.basic_parse(self, multiple_values=True, buf_size=PIECE_BYTES)
        except UnicodeDecodeError:
            raise
        except (ijson.JSONError, ValueError, ArithmeticError, SystemError) as error:
            first, last = self._lines, self._lines + self._ends_of_piece
            lines = f"line {first}" if first == last else f"lines {first} to {last}"
            raise ToolError(f"{self._name} isn't JSON: {_reason(error)} in {lines}") from error

    def values_at(self, elements: str) -> Iterator[Any]:
        """The values at the first part of a path, each whole. Without one these are the documents, and the elements of those that are arrays.
        Raises `OSError` and `ToolError`, also at the end if nothing was there."""
        places, is_there = Places(self._name), not elements
        events = self.events()
        for event, value in events:
            place = places.of(event, value)
            is_there |= event == "start_array" and place + EACH == elements
            if place != elements and (elements or place != EACH):
                continue
            if event in ("map_key", "end_map", "end_array"):
                continue
            if event == "start_array" and not elements and place == "":
                continue
            self._held = 0
            found = _whole(event, value, events, self._name)
            self._held = None
            if event in _WHOLE:
                places.of("end_map", None)
            yield found
        if not is_there:
            raise ToolError(f"{self._name} has no {elements}: say by --ref where references are")


def _whole(event: str, value: Any, events: Iterator[Event], name: str, depth: int = 0) -> Any:
    """The value that begins with an event, with what follows of it. Raises `ToolError`."""
    if depth > MOST_DEPTH:
        raise _too_deep(name)
    return _WHOLE[event](events, name, depth + 1) if event in _WHOLE else value


def _object(events: Iterator[Event], name: str, depth: int) -> dict[str, Any]:
    found = {}
    for event, member in events:
        if event == "end_map":
            break
        event, value = next(events)
        found[member] = _whole(event, value, events, name, depth) if event in _WHOLE else value
    return found


def _array(events: Iterator[Event], name: str, depth: int) -> list[Any]:
    found = []
    for event, value in events:
        if event == "end_array":
            break
        found.append(_whole(event, value, events, name, depth) if event in _WHOLE else value)
    return found


_WHOLE: dict[str, Callable[[Iterator[Event], str, int], Any]] = {
    "start_map": _object,
    "start_array": _array,
}


def _too_deep(name: str) -> ToolError:
    return ToolError(f"{name} has more than {MOST_DEPTH} arrays and objects within each other")


def _reason(error: Exception) -> str:
    """What the parser says of bytes, without its drawing of where it is. Of numbers it has errors of Python."""
    is_parsed = not isinstance(error, (ValueError, ArithmeticError, SystemError))
    said = error.args[0] if error.args else ""
    line = said.decode("utf-8", "replace") if isinstance(said, bytes) else str(said)
    return line.partition("\n")[0].rstrip(".") if is_parsed else "a number has too many digits"
