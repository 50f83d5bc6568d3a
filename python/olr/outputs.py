"""Files that are written whole or not at all.

What is written is made in a folder of its own beside its place, handed over to the disk, and then moved to its place. Where that
fails, what was there is as it was, and nothing else is left. So it is after an interrupt too. Only a process that is killed leaves
that folder behind, whose name begins with `.olr-tools.`.

GDAL doesn't tell of each write that failed: let it write into memory, and hand the bytes to `write_whole`.
"""

import errno
import os
import shutil
from collections.abc import Iterable, Iterator
from contextlib import contextmanager, suppress
from pathlib import Path

from olr.errors import ToolError
from olr.temporary import temporary_folder

PREFIX = ".olr-tools."
"""Of the names of folders in which something is made."""
NO_SYNC = (errno.EINVAL, errno.ENOTSUP, errno.EACCES)
"""How a folder answers that can't be synced: by its file system, or because it can't be read."""


def require_free_file(file: Path, force: bool = False, inputs: Iterable[Path] = ()) -> None:
    """Raises `ToolError` if a file can't be written there: a folder, a device, one of the inputs under whatever name, or another
    file is there. With `force` such another file may be replaced."""
    with writing(file):
        if not file.exists():
            return
        if file.is_dir():
            raise ToolError(f"{file} is a folder: name a file")
        if not file.is_file():
            raise ToolError(f"{file} is a device or a pipe: name a file")
        if any(one.exists() and one.samefile(file) for one in inputs):
            raise ToolError(f"{file} is one of the inputs: name another file")
        if not force:
            raise ToolError(f"{file} is there: name another file, or replace it by --force")


@contextmanager
def whole_file(file: Path, force: bool = False, inputs: Iterable[Path] = ()) -> Iterator[Path]:
    """Gives the name of a file to write in place of `file`, and moves it there at the end of the `with` statement. A link is
    followed, a file that is replaced keeps its permissions, and folders above are made as needed.

    Raises `ToolError` as `require_free_file` does, and where it can't be written, which is what each `OSError` is taken for. Then
    all is as it was.
    """
    others = list(inputs)
    require_free_file(file, force, others)
    place = Path(os.path.realpath(file))
    with writing(file), folder_beside(place) as beside:
        made = beside / place.name
        yield made
        sync(made)
        require_free_file(file, force, others)
        if place.exists():
            shutil.copymode(place, made)
        made.replace(place)
        sync(place.parent)


def write_whole(
    file: Path, content: bytes, force: bool = False, inputs: Iterable[Path] = ()
) -> None:
    """Writes a file of some bytes. Raises `ToolError` as `whole_file` does: then all is as it was."""
    with whole_file(file, force, inputs) as made:
        made.write_bytes(content)


@contextmanager
def folder_beside(place: Path) -> Iterator[Path]:
    """Gives a new folder beside a place, for what shall be moved there, and deletes it at the end. Folders above are made as needed;
    they are deleted too if an error is raised. Raises `OSError`."""
    with folders_made(place.parent):
        with temporary_folder(PREFIX, place.parent) as beside:
            yield beside


@contextmanager
def folders_made(folder: Path) -> Iterator[None]:
    """Makes a folder and those above it. Where an error is raised, those that weren't there are deleted again. Raises `OSError`."""
    missing = [one for one in (folder, *folder.parents) if not one.exists()]
    made: list[Path] = []
    try:
        for one in reversed(missing):
            one.mkdir(exist_ok=True)
            made.append(one)
        yield
    except BaseException:
        for one in reversed(made):
            with suppress(OSError):
                one.rmdir()
        raise
    for one in made:
        sync(one.parent)


def sync(path: Path) -> None:
    """Hands over to the disk what a file has in it, or which names a folder has, where that can be done. Raises `OSError`."""
    try:
        handle = os.open(path, os.O_RDONLY)
        try:
            os.fsync(handle)
        finally:
            os.close(handle)
    except OSError as error:
        if error.errno not in NO_SYNC:
            raise


@contextmanager
def writing(path: Path) -> Iterator[None]:
    """Raises `ToolError` for each `OSError`: what is written there can't be written."""
    try:
        yield
    except OSError as error:
        raise ToolError(f"{path} can't be written: {error.strerror or error}") from error
