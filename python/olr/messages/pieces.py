"""Bytes in pieces as a stream, and a stream in pieces."""

import io
from collections.abc import Iterable, Iterator
from functools import partial
from typing import TYPE_CHECKING

if TYPE_CHECKING:
    from _typeshed import WriteableBuffer

PIECE_BYTES = 1 << 18
"""So much is read at once."""


def stream_of(pieces: Iterable[bytes]) -> io.BufferedReader:
    """A stream of pieces of bytes."""
    return io.BufferedReader(_Pieces(iter(pieces)), PIECE_BYTES)


def pieces_as_they_come(stream: io.BufferedIOBase) -> Iterator[bytes]:
    """The bytes of a stream in pieces, each as soon as it is there. Raises `OSError`."""
    return iter(partial(stream.read1, PIECE_BYTES), b"")


class _Pieces(io.RawIOBase):
    """What an iterator of bytes gives, as a stream."""

    def __init__(self, pieces: Iterator[bytes]) -> None:
        self._pieces, self._left = pieces, b""

    def readable(self) -> bool:
        return True

    def readinto(self, buffer: "WriteableBuffer") -> int:
        while not self._left:
            piece = next(self._pieces, None)
            if piece is None:
                return 0
            self._left = piece
        room = memoryview(buffer).cast("B")
        size = min(len(room), len(self._left))
        room[:size], self._left = self._left[:size], self._left[size:]
        return size
