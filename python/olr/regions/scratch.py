"""Maps in scratch files, which lie in the folder that TMPDIR names: where they can't be written, that is said."""

import tempfile
from collections.abc import Iterator
from contextlib import ExitStack, contextmanager
from pathlib import Path

from olr.arrays import Integers
from olr.asking.files import MapFiles
from olr.errors import ToolError
from olr.model.map_folder import BANS, LINES, NODES
from olr.regions.store import Store
from olr.temporary import temporary_folder

PREFIX = "olr-map."
"""Of the names of scratch folders, and of files where the file system has none without a name."""
ADVICE = "name another folder for scratch files by TMPDIR"


@contextmanager
def _made() -> Iterator[None]:
    """Raises `ToolError` where a folder can't be made, or a file can't be written."""
    try:
        yield
    except OSError as error:
        raise ToolError(f"scratch files can't be written: {error.strerror}: {ADVICE}") from error


@contextmanager
def scratch_files(store: Store, lines: Integers) -> Iterator[MapFiles]:
    """Gives a map of some lines until the end, in files without names: however this process ends, nothing of them is left. They are for it
    alone, and for processes that get their descriptors. Raises `ToolError` as `Store.files_of`, or if they can't be written.
    """
    made, descriptors = dict[str, Path](), list[int]()
    files = store.files_of(lines)
    with ExitStack() as stack:
        with _made():
            for name, content in files:
                file = stack.enter_context(tempfile.TemporaryFile(prefix=PREFIX))
                descriptors.append(file.fileno())
                made[name] = Path(f"/proc/self/fd/{file.fileno()}")
                made[name].write_bytes(content)
        yield MapFiles(made[NODES], made[LINES], made[BANS], descriptors)


@contextmanager
def scratch_folder() -> Iterator[Path]:
    """Gives a new folder, and deletes it at the end. Raises `ToolError` if it can't be made."""
    with ExitStack() as stack:
        with _made():
            scratch = stack.enter_context(temporary_folder(PREFIX))
        yield scratch


@contextmanager
def scratch_map(store: Store, lines: Integers) -> Iterator[Path]:
    """Gives the folder of a map of some lines, and deletes it at the end. Raises `ToolError` as `Store.write_map`."""
    with scratch_folder() as scratch:
        folder = scratch / "map"
        try:
            store.write_map(lines, folder)
        except ToolError as error:
            if str(folder) in str(error):
                raise ToolError(f"{error}: {ADVICE}") from error
            raise
        yield folder
