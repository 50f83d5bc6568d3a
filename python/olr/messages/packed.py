"""Bytes that are packed, by gzip, bzip2, xz or zstd or in a zip of one file, as a stream. They are known by their first bytes."""

import bz2
import gzip
import io
import lzma
import shutil
import struct
import tempfile
import zipfile
import zlib
from collections.abc import Callable, Iterable, Iterator
from contextlib import contextmanager
from functools import partial
from itertools import chain
from typing import IO, Any, cast

from olr.extras import needed_by
from olr.importing.packed import BZIP2, GZIP, XZ, ZIP, ZSTD, Packing
from olr.messages.pieces import PIECE_BYTES, pieces_as_they_come, stream_of
from olr.messages.texts import shown

SMALL_PIECE = 512
"""Bytes of zstd that are unpacked at once: they may become 16 MiB."""
MOST_WINDOW = 128 << 20
"""Bytes that xz and zstd may need: `xz -9` takes 65 MiB, and `zstd --ultra -22` as many as this."""
LEAST_REFUSED = 1 << 30
MOST_TIMES = 1000
"""What becomes more than this many times its size is refused beyond the bytes above: no feed does, and what is made to fill a disk does."""
WORKBOOK = "xl/workbook.xml"
"""What a zip has in it that is a workbook of a spreadsheet."""
MAGIC_BYTES = 6
"""So many first bytes tell each packing."""


class Unpackable(Exception):
    """Packed bytes that can't be unpacked: why, and what to do, as it stands behind the name of their file."""


class _Counted:
    """A stream whose bytes are counted. Of a pipe it gives those that are there."""

    def __init__(self, stream: io.BufferedIOBase) -> None:
        self._stream = stream
        self.bytes = 0

    def read(self, size: int) -> bytes:
        """The next bytes, so many at most; none at the end."""
        piece = self._stream.read1(size)
        self.bytes += len(piece)
        return piece


def unpacked(packing: Packing, start: bytes, stream: io.BufferedIOBase) -> Iterator[bytes]:
    """What was packed, in pieces: `start` and then the bytes of a stream. Reading raises `OSError` as the stream does, `Unpackable`, and
    `MissingModule` if nothing here can unpack it."""
    if packing == ZIP:
        return _of_zip(start, stream)
    counted = _Counted(stream_of(chain([start], pieces_as_they_come(stream))))
    return _bounded(UNPACKING[packing](counted), lambda: counted.bytes)


def files_in_zip(archive: zipfile.ZipFile) -> list[zipfile.ZipInfo]:
    """The files of an archive, without folders and what macOS adds."""
    found = (one for one in archive.infolist() if not one.is_dir())
    return [one for one in found if not one.filename.startswith("__MACOSX/")]


def _of_zip(start: bytes, stream: io.BufferedIOBase) -> Iterator[bytes]:
    """What the only file of an archive has. An archive that can't be read twice, as one of a pipe, is copied first."""
    with tempfile.TemporaryFile() as copy:
        archive: IO[bytes] = cast(IO[bytes], stream)
        if not stream.seekable():
            archive = copy
            copy.write(start)
            shutil.copyfileobj(stream, copy)
        with _understood(), zipfile.ZipFile(archive) as opened:
            one = _only_file(opened)
            with opened.open(one) as file:
                pieces = pieces_as_they_come(cast(io.BufferedIOBase, file))
                yield from _bounded(pieces, lambda: one.compress_size)


def _only_file(archive: zipfile.ZipFile) -> zipfile.ZipInfo:
    """The file of an archive that has one. Raises `Unpackable`."""
    found = files_in_zip(archive)
    if any(one.filename == WORKBOOK for one in found):
        raise Unpackable("is a workbook: name the file itself")
    if len(found) != 1:
        names = shown(one.filename for one in found) or "none"
        raise Unpackable(f"has {len(found)} files, and not one: unpack it, and name one: {names}")
    if found[0].flag_bits & 1:
        raise Unpackable("is encrypted: unpack it first")
    if found[0].compress_type not in (zipfile.ZIP_STORED, zipfile.ZIP_DEFLATED):
        raise Unpackable("is a zip with another method than deflate: unpack it first, by unzip")
    return found[0]


def _bounded(pieces: Iterable[bytes], packed: Callable[[], int]) -> Iterator[bytes]:
    """Pieces of what `packed` bytes became. Raises `Unpackable` if they are damaged, or made to fill a disk."""
    total = 0
    with _understood():
        for piece in pieces:
            total += len(piece)
            if total > max(LEAST_REFUSED, MOST_TIMES * packed()):
                size = f"{LEAST_REFUSED >> 20:,} MiB and {MOST_TIMES:,} times its size"
                raise Unpackable(f"becomes more than {size}: unpack it first, if this is meant")
            yield piece


@contextmanager
def _understood() -> Iterator[None]:
    """Raises `Unpackable` for what libraries raise of packed bytes that are damaged. Errors of the system have numbers, and pass."""
    try:
        yield
    except DAMAGED as error:
        if isinstance(error, OSError) and error.errno is not None:
            raise
        raise _damaged(str(error) or type(error).__name__) from error


def _damaged(why: str) -> Unpackable:
    return Unpackable(f"can't be unpacked: {why}: copy the file again")


def _of_gzip(stream: _Counted) -> Iterator[bytes]:
    return pieces_as_they_come(gzip.GzipFile(fileobj=cast(IO[bytes], stream)))


def _of_bzip2(stream: _Counted) -> Iterator[bytes]:
    return pieces_as_they_come(bz2.BZ2File(cast(IO[bytes], stream)))


def _of_xz(stream: _Counted) -> Iterator[bytes]:
    """The bytes of xz. `lzma.LZMAFile` would look back as far as a file says."""

    def begun() -> lzma.LZMADecompressor:
        return lzma.LZMADecompressor(lzma.FORMAT_XZ, MOST_WINDOW)

    one, is_new = begun(), True
    for piece in iter(partial(stream.read, PIECE_BYTES), b""):
        while piece or not (is_new or one.needs_input):
            yield one.decompress(piece, PIECE_BYTES)
            piece, is_new = b"", False
            if one.eof:
                piece, one, is_new = one.unused_data.lstrip(b"\0"), begun(), True
    if not is_new:
        raise _damaged("it ends before its end")


def _of_zstd(stream: _Counted) -> Iterator[bytes]:
    """The bytes of zstd. The reader of its library takes what was cut short for whole."""
    with needed_by("unpacking zstd", "feeds"):
        import zstandard

    def begun() -> Any:
        return zstandard.ZstdDecompressor(max_window_size=MOST_WINDOW).decompressobj()

    one, is_new = begun(), True
    for piece in iter(partial(stream.read, SMALL_PIECE), b""):
        while piece:
            try:
                yield one.decompress(piece)
            except zstandard.ZstdError as error:
                raise _damaged(str(error)) from error
            piece, is_new = b"", False
            if one.eof:
                piece, one, is_new = one.unused_data, begun(), True
    if not is_new:
        raise _damaged("it ends before its end")


DAMAGED = (
    *(EOFError, OSError, OverflowError, RuntimeError, ValueError),
    *(lzma.LZMAError, struct.error, zipfile.BadZipFile, zlib.error),
)
"""What libraries raise of packed bytes that are damaged."""
UNPACKING = {GZIP: _of_gzip, BZIP2: _of_bzip2, XZ: _of_xz, ZSTD: _of_zstd}
