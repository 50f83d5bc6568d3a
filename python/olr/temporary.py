"""Folders that are there for a while."""

import tempfile
from collections.abc import Iterator
from contextlib import contextmanager
from pathlib import Path

from olr.signals import kept_signals


@contextmanager
def temporary_folder(prefix: str, parent: Path | None = None) -> Iterator[Path]:
    """Gives a new folder, in the one that TMPDIR names unless there is a parent, and deletes it at the end. No signal that ends a command
    leaves it behind: such a signal waits while the folder is made, and while it is deleted. Raises `OSError`.
    """
    with kept_signals():
        folder = tempfile.TemporaryDirectory(prefix=prefix, dir=parent)
    try:
        yield Path(folder.name)
    finally:
        with kept_signals():
            folder.cleanup()
