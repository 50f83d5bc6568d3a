"""What files have in them, by their SHA-256 digests."""

import hashlib
import time
from dataclasses import dataclass
from functools import lru_cache, partial
from pathlib import Path
from typing import NamedTuple

from olr.errors import ToolError, readable
from olr.progress import watched

PIECE = 1 << 20
"""So many bytes are read at once: a MiB."""
SETTLED = 2_000_000_000
"""Nanoseconds after a change in which another change might have the same time, by the clock of a file system."""


@dataclass(frozen=True)
class Content:
    """What a file has in it."""

    bytes: int
    sha256: str

    @classmethod
    def of(cls, file: Path, shown: bool = True) -> "Content":
        """The content of a file. Shows how far it is, unless that isn't asked for. Raises `ToolError` if it can't be read."""
        with readable(file):
            if file.exists() and not file.is_file():
                raise ToolError(f"{file} is no file: it has to be read twice")
            with file.open("rb") as stream:
                digest = hashlib.sha256()
                pieces = iter(partial(stream.read, PIECE), b"")
                total = -(-file.stat().st_size // PIECE)
                for piece in watched(pieces, f"MiB of {file.name}", total) if shown else pieces:
                    digest.update(piece)
                return cls(stream.tell(), digest.hexdigest())


class Stamp(NamedTuple):
    """By what it is seen, without reading it, that a file was changed or that another one has its name."""

    device: int
    inode: int
    bytes: int
    modified: int
    """When its bytes were last changed, as the next one in nanoseconds. A program may set it."""
    changed: int
    """When its bytes, its name or its permissions were last changed, by the clock of its file system."""

    @classmethod
    def of(cls, file: Path, remedy: str = "") -> "Stamp":
        """The stamp of a file. Raises `ToolError`, with the remedy of `readable`, if it can't be read."""
        with readable(file, remedy):
            status = file.stat()
        return cls(
            status.st_dev, status.st_ino, status.st_size, status.st_mtime_ns, status.st_ctime_ns
        )

    def unsettled(self) -> int:
        """For how many nanoseconds from now on another change might have the same stamp: 0 for a file that hasn't changed lately."""
        return min(max(SETTLED - (time.time_ns() - self.changed), 0), SETTLED)


def digest_of(*files: Path) -> str | None:
    """A name of what files have in them together: the digest of their digests. None if one of them can't be read, or can't be read
    twice, as a pipe. Files that haven't changed since, by the system's time of their last change, aren't read again.
    """
    try:
        return require_digest_of(*files)
    except ToolError:
        return None


def require_digest_of(*files: Path) -> str:
    """As `digest_of`. Raises `ToolError` if one of the files can't be read."""
    return hashlib.sha256("".join(map(sha256_of, files)).encode()).hexdigest()


def sha256_of(file: Path) -> str:
    """The SHA-256 digest of a file, in hexadecimal digits. A file that hasn't changed since isn't read again. Raises `ToolError` if it
    can't be read."""
    stamp = Stamp.of(file)
    if stamp.unsettled():
        return Content.of(file, shown=False).sha256
    return _read_once(file, stamp)


@lru_cache(maxsize=256)
def _read_once(file: Path, _stamp: Stamp) -> str:
    """The digest of a file, for its stamp. Raises `ToolError`."""
    return Content.of(file, shown=False).sha256
