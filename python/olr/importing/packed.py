"""Files that are packed, known by their first bytes, whatever their names."""

import bz2
import gzip
import shlex
import zlib
from collections.abc import Mapping
from contextlib import suppress
from pathlib import Path
from typing import IO, Any, NamedTuple

from olr.errors import ToolError, readable

HEAD = 4096
"""So many bytes of a file are looked at."""


class Packing(NamedTuple):
    """A way to pack a file."""

    suffix: str
    """Of file names."""
    first_bytes: bytes
    command: str
    """What unpacks the file `{file}` into the file `{unpacked}`."""


GZIP = Packing(".gz", b"\x1f\x8b", "gzip -dc {file} > {unpacked}")
BZIP2 = Packing(".bz2", b"BZh", "bzip2 -dc {file} > {unpacked}")
ZIP = Packing(".zip", b"PK\3\4", "unzip {file}")
XZ = Packing(".xz", b"\xfd7zXZ\0", "xz -dc {file} > {unpacked}")
ZSTD = Packing(".zst", b"\x28\xb5\x2f\xfd", "zstd -dc {file} > {unpacked}")
PACKINGS = (GZIP, BZIP2, ZIP, XZ, ZSTD)


def packing_of(file: Path) -> Packing | None:
    """How a file is packed; None if it isn't. Raises `ToolError` if it can't be read."""
    with readable(file), file.open("rb") as stream:
        return packing_of_bytes(stream.read(HEAD))


def packing_of_bytes(head: bytes) -> Packing | None:
    """How bytes are packed that begin with these; None if they aren't."""
    return next((one for one in PACKINGS if head.startswith(one.first_bytes)), None)


def open_unpacked(file: Path) -> IO[bytes]:
    """A file for reading, unpacked if it is packed by gzip or bzip2. Raises `OSError`, also while it is read, and then `EOFError` and
    `zlib.error` too, if it is damaged."""
    opening: Mapping[Packing | None, Any] = {GZIP: gzip.open, BZIP2: bz2.open}
    stream: IO[bytes] = opening.get(packing_of(file), open)(file, "rb")
    return stream


def head_of(file: Path) -> bytes:
    """The first bytes of a file, unpacked if it is packed by gzip or bzip2; what can be read of them where they are damaged. Raises
    `ToolError` if the file can't be read."""
    with readable(file), suppress(EOFError, zlib.error), open_unpacked(file) as stream:
        return stream.read(HEAD)
    return b""


def packed_error(file: Path, packing: Packing) -> ToolError:
    """The error of a file that has to be unpacked first, with the command for it."""
    unpacked = file.stem if file.suffix == packing.suffix else "unpacked"
    words = {"file": shlex.quote(str(file)), "unpacked": shlex.quote(unpacked)}
    return ToolError(f"{file} is packed: unpack it first: {packing.command.format(**words)}")
