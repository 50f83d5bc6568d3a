"""Files with fixed dates, order and owners, and folders made of them."""

import gzip
import os
from collections.abc import Iterable
from pathlib import Path
from typing import NamedTuple

WRITTEN, RUN = 0o644, 0o755
"""The rights of a file, and those of a program or a folder."""


class Entry(NamedTuple):
    """A file that is to be: its path with slashes, relative to the folder of all of them, and its content."""

    path: str
    content: bytes
    is_run: bool = False

    @property
    def mode(self) -> int:
        """Its rights."""
        return RUN if self.is_run else WRITTEN

    def below(self, folder: str) -> "Entry":
        """The same file in a folder."""
        return self._replace(path=f"{folder}/{self.path}")


def compressed(content: bytes) -> bytes:
    """Bytes as gzip packs them, without a date and a name."""
    return gzip.compress(content, compresslevel=9, mtime=0)


def write_folder(folder: Path, entries: Iterable[Entry], seconds: int) -> None:
    """Writes files and the folders that they need, all with one date, in seconds since 1970. Raises `OSError`."""
    for entry in entries:
        file = folder / entry.path
        file.parent.mkdir(parents=True, exist_ok=True)
        file.write_bytes(entry.content)
        file.chmod(entry.mode)
        os.utime(file, (seconds, seconds))
    for place, _, _ in os.walk(folder):
        os.chmod(place, RUN)
        os.utime(place, (seconds, seconds))
