"""A file of messages, or standard input, as bytes in UTF-8 without a byte order mark."""

import codecs
import io
import shutil
import sys
from collections.abc import Iterable, Iterator
from contextlib import ExitStack, contextmanager
from itertools import chain
from pathlib import Path
from typing import cast

from olr.errors import ToolError
from olr.importing.packed import packing_of_bytes
from olr.messages.packed import MAGIC_BYTES, Unpackable, unpacked
from olr.messages.pieces import PIECE_BYTES, pieces_as_they_come, stream_of
from olr.temporary import temporary_folder

STANDARD_INPUT = Path("-")
UTF_16 = codecs.BOM_UTF16_LE, codecs.BOM_UTF16_BE


def name_of(file: Path) -> str:
    """What errors call a file."""
    return "standard input" if file == STANDARD_INPUT else str(file)


def is_read_twice(file: Path) -> bool:
    """Whether a file is there that can be read twice. Standard input and pipes can't."""
    return file != STANDARD_INPUT and file.is_file()


@contextmanager
def opened(file: Path) -> Iterator[Iterator[bytes]]:
    """The bytes of a file in pieces, while it is open, unpacked if it is packed. What isn't UTF-8 is passed on, but what begins with the
    mark of UTF-16 is made UTF-8. Reading raises `OSError`, `Unpackable`, and `UnicodeDecodeError` for what isn't UTF-16 then.
    """
    with _raw(file) as stream:
        yield pieces_of(stream)


def pieces_of(stream: io.BufferedIOBase) -> Iterator[bytes]:
    """The bytes of a stream in pieces, as those of `opened`."""
    start = stream.read(MAGIC_BYTES)
    if packing := packing_of_bytes(start):
        stream = stream_of(unpacked(packing, start, stream))
        start = stream.read(MAGIC_BYTES)
        if packing_of_bytes(start):
            raise Unpackable("is packed twice: unpack it first")
    is_utf_16, start = start.startswith(UTF_16), start.removeprefix(codecs.BOM_UTF8)
    pieces = chain([start + stream.read1(PIECE_BYTES)], pieces_as_they_come(stream))
    return _recoded(pieces) if is_utf_16 else pieces


def text_lines(stream: io.BufferedReader, newline: str, name: str) -> Iterator[str]:
    """The lines of a stream of text, with their ends. `newline` is that of `open`. Raises `OSError`, and `ToolError`, with the `name`
    of the file, for a line that isn't UTF-8."""
    text = io.TextIOWrapper(stream, encoding="utf-8", errors="surrogateescape", newline=newline)
    for number, line in enumerate(text, 1):
        try:
            line.encode()
        except UnicodeEncodeError as error:
            raise not_utf_8(f"{name}: line {number}") from error
        yield line


def not_utf_8(what: str) -> ToolError:
    """The error of what isn't UTF-8."""
    return ToolError(f"{what} isn't UTF-8: convert it, such as by iconv -f LATIN1 -t UTF-8")


@contextmanager
def as_file(file: Path) -> Iterator[Path]:
    """A file that can be read twice: the file itself, or a copy of standard input or of a pipe, which is deleted at the end. Raises
    `ToolError` if it can't be copied."""
    if file != STANDARD_INPUT and (file.is_file() or file.is_dir() or not file.exists()):
        yield file
        return
    with ExitStack() as stack:
        try:
            copy = stack.enter_context(temporary_folder("olr-run.")) / "messages"
            with _raw(file) as stream, copy.open("wb") as made:
                shutil.copyfileobj(stream, made)
        except OSError as error:
            raise ToolError(f"{name_of(file)} can't be copied: {error.strerror}") from error
        yield copy


@contextmanager
def _raw(file: Path) -> Iterator[io.BufferedReader]:
    """The bytes of a file as they are. Raises `OSError`."""
    if file != STANDARD_INPUT:
        with file.open("rb") as stream:
            yield stream
    elif sys.stdin is None:
        raise ToolError("standard input is closed: name a file")
    else:
        yield cast(io.BufferedReader, sys.stdin.buffer)


def _recoded(pieces: Iterable[bytes]) -> Iterator[bytes]:
    """Pieces of UTF-16 in UTF-8."""
    decoder = codecs.getincrementaldecoder("utf-16")()
    for piece in pieces:
        yield decoder.decode(piece).encode()
    yield decoder.decode(b"", True).encode()
