"""Which map, which program and which confidence the lines of a run come from, and that a machine has just these.

They are compared when they are first used, and when their file has another stamp than before. And no lines count that were made while
a stamp changed: what was read then may be of both files.
"""

import threading
import time
from collections.abc import Iterator
from contextlib import ExitStack, contextmanager
from dataclasses import dataclass
from functools import lru_cache
from pathlib import Path
from socket import gethostname

from olr.asking.files import MapFiles
from olr.asking.once import run
from olr.asking.program import find_program
from olr.content import Stamp, sha256_of
from olr.errors import ProgramEnded, TimedOut, ToolError
from olr.regions.store import Store
from olr.running.asked_map import AskedMap

SECONDS_TO_SAY_VERSION = 30
DIGITS = 12
"""Of a digest in a message."""
_kept = threading.local()
"""The store that a thread keeps open, and its path and stamp."""


@dataclass(frozen=True)
class Build:
    """A program: its version as it says it, or an empty text, and the digest of its file."""

    version: str
    sha256: str

    @classmethod
    def of(cls, program: Path) -> "Build":
        """That of a program. A file that hasn't changed is neither read nor asked again. Raises `ToolError` where it can't be read,
        `ProgramNotFound` where it can't be started, and `ProgramEnded` if it doesn't end when it is asked for its version.
        """
        return cls(_version_of(program, Stamp.of(program)), sha256_of(program))

    def __str__(self) -> str:
        return f"{self.version or 'without a version'}, SHA-256 {shortened(self.sha256)}"


def shortened(digest: str) -> str:
    """The beginning of a digest, for a message."""
    return f"{digest[:DIGITS]}.."


@lru_cache(maxsize=256)
def _version_of(program: Path, _stamp: Stamp) -> str:
    """What a program with this stamp says as its version. Raises as `Build.of`."""
    try:
        status, printed, _ = run(program, ["--version"], SECONDS_TO_SAY_VERSION)
    except TimedOut as error:
        took = f"{program} --version took more than {SECONDS_TO_SAY_VERSION} s"
        raise ProgramEnded(f"{took}: is it the program olr?") from error
    lines = printed.decode("utf-8", errors="replace").splitlines()
    return lines[0].strip() if lines and not status else ""


@contextmanager
def same_store(file: Path, digest: str) -> Iterator[Store]:
    """Gives the store of a path, whose map has this digest. The thread keeps it open from one use to the next one, with what was read of
    it, until it asks for another one or the file changed.

    Raises `ToolError` if there is none on this machine, if its map is another one, and at the end if the file changed meanwhile.
    """
    with _here():
        if not file.is_file():
            raise ToolError(f"{file} isn't there: copy the store of the run there")
        store, stamp = _opened(file)
        if store.digest != digest:
            which = f"is of another map, {shortened(store.digest)}, and not {shortened(digest)}"
            raise ToolError(f"{file} {which}: copy the store of the run there")
    with _unchanged(file, stamp):
        yield store


@contextmanager
def same_files(asked: AskedMap, digest: str) -> Iterator[MapFiles]:
    """Gives the files of a folder, whose map has this digest. Raises `ToolError` if they can't be read, if they are of another map, and at the
    end if one changed meanwhile."""
    with ExitStack() as unchanged:
        with _here():
            files = asked.files()
            for file in files.paths():
                stamp = Stamp.of(file)
                time.sleep(stamp.unsettled() / 1e9)
                unchanged.enter_context(_unchanged(file, stamp))
            if asked.digest() != digest:
                raise ToolError(f"the map in {asked.path} is another one than that of the run")
        yield files


@contextmanager
def same_confidence(file: Path, digest: str | None) -> Iterator[Path | None]:
    """Gives the file of a confidence, which has this digest; None where a run has none. Raises `ToolError` if it can't be read on this
    machine, if it is another one, and at the end if it changed meanwhile."""
    if digest is None:
        yield None
        return
    with _here():
        stamp = Stamp.of(file)
        if sha256_of(file) != digest:
            raise ToolError(f"{file} is another confidence than that of the run: put that there")
    with _unchanged(file, stamp):
        yield file


@contextmanager
def same_program(build: Build) -> Iterator[None]:
    """Raises `ToolError` if the program on this machine isn't this one, and at the end if its file changed meanwhile."""
    with _here():
        program = find_program()
        stamp, found = Stamp.of(program), Build.of(program)
        if found != build:
            which = f"is another program, {found}, and not {build}"
            raise ToolError(f"{program} {which}: put the program of the run there")
    with _unchanged(program, stamp):
        yield


def _opened(file: Path) -> tuple[Store, Stamp]:
    """The store of a path, and its stamp before it was opened. Raises `ToolError`."""
    stamp = Stamp.of(file)
    if getattr(_kept, "name", None) != (file, stamp):
        time.sleep(stamp.unsettled() / 1e9)
        try:
            _kept.store, _kept.name = Store.open(file), (file, stamp)
        finally:
            _require_stamp(file, stamp)
    store: Store = _kept.store
    return store, stamp


@contextmanager
def _unchanged(file: Path, stamp: Stamp) -> Iterator[None]:
    """Raises `ToolError` at the end if a file has another stamp then: that is the reason for whatever else was raised."""
    try:
        yield
    finally:
        with _here():
            _require_stamp(file, stamp)


def _require_stamp(file: Path, stamp: Stamp) -> None:
    """Raises `ToolError` if a file has another stamp."""
    if Stamp.of(file) != stamp:
        raise ToolError(f"{file} changed while it was used: go on by --resume")


@contextmanager
def _here() -> Iterator[None]:
    """Names this machine in each `ToolError`."""
    try:
        yield
    except ToolError as error:
        raise ToolError(f"on {gethostname()}: {error}") from error
