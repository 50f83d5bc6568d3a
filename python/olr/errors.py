"""The errors that a user sees."""

import errno
from collections.abc import Iterator
from contextlib import contextmanager

NOT_THERE = (errno.ENOENT, errno.ENOTDIR, errno.EISDIR)
"""Why a path can't be read that isn't the one that was meant."""


class ToolError(Exception):
    """Something is wrong with what the user gave. The text is one line without a full stop: what is wrong, where, and what to do.

    The command line prints it behind `olr-tools: ` on standard error, and ends with status 1. All other errors of the package are kinds of
    it, but for `TypeError`, `ValueError` and `KeyError`, which say that a call is wrong.

    >>> import olr
    >>> olr.Network.read("nowhere")
    Traceback (most recent call last):
    olr.errors.ToolError: nowhere/nodes.csv can't be read: No such file or directory: name a folder with nodes.csv and lines.csv
    """


class ProgramNotFound(ToolError):
    """The program `olr` isn't there, or can't be started.

    >>> import olr
    >>> olr.decode("CwVF+yN2yhpnBAFdAAsaFg==", program="nowhere/olr")
    Traceback (most recent call last):
    olr.errors.ProgramNotFound: there is no program nowhere/olr: ...
    """


class ProgramEnded(ToolError):
    """A process of `olr` ended before it had answered, or what it wrote isn't an answer to what it was asked.

    >>> import olr
    >>> with olr.Map("examples", program="/bin/true") as town:
    ...     town.match("CwVF+yN2yhpnBAFdAAsaFg==")
    ...
    Traceback (most recent call last):
    olr.errors.ProgramEnded: ...
    """


class TimedOut(ToolError):
    """A process of `olr` answered nothing for as long as it is given, and was ended.

    `reference` is the text at which that was, and `number` tells which one it is of many that were asked, from 1. They are None where
    that isn't known.

    >>> import olr
    >>> with olr.Map("examples", patience=1e-9) as town:
    ...     try:
    ...         town.match("CwVF+yN2yhpnBAFdAAsaFg==")
    ...     except olr.TimedOut as error:
    ...         print(error.reference)
    ...
    CwVF+yN2yhpnBAFdAAsaFg==
    """

    def __init__(self, text: str, reference: str | None = None, number: int | None = None) -> None:
        super().__init__(text)
        self.reference, self.number = reference, number


class MapRefused(ToolError):
    """`olr` doesn't accept the files of a map, or they aren't the version that was read before.

    >>> import olr
    >>> with olr.Map("examples/lines.csv", "examples/nodes.csv") as swapped:
    ...     swapped.match("CwVF+yN2yhpnBAFdAAsaFg==")
    ...
    Traceback (most recent call last):
    olr.errors.MapRefused: olr refuses the map: Header nodes: ...
    """


class MissingModule(ToolError, ModuleNotFoundError):
    """A module isn't installed that a command or a public name of the package needs. `name` is the module."""


def reason_of(error: OSError) -> str:
    """An error of the system as part of a line: its path, if it has one, and the reason."""
    reason = error.strerror or str(error) or type(error).__name__
    return f"{error.filename}: {reason}" if error.filename else reason


@contextmanager
def readable(path: object, remedy: str = "") -> Iterator[None]:
    """Raises `ToolError` for a path with a NUL, and for each `OSError`: what is there can't be read. The remedy says what to name where
    nothing is there, or a folder in place of a file."""
    if "\0" in str(path):
        raise ToolError(f"{str(path)!r} can't be read: no path has a NUL")
    try:
        yield
    except OSError as error:
        what_to_do = f": {remedy}" if remedy and error.errno in NOT_THERE else ""
        reason = f"{error.strerror or error}{what_to_do}"
        raise ToolError(f"{path} can't be read: {reason}") from error


ANOTHER_MAP = ": make another Map"
"""What a caller in Python does about a map that has changed. Who has no Python leaves it out."""


def map_changed(what: str) -> MapRefused:
    """The error of a map that has changed since it was read."""
    return MapRefused(what + ANOTHER_MAP)


def closed_error() -> ToolError:
    """The error of a map that was closed."""
    return ToolError("this map is closed: make another one")


def forked_error() -> ToolError:
    """The error of a map in a fork of the process that made it."""
    return ToolError("this map belongs to the process that made it: make another one here")
