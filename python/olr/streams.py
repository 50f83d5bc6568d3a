"""Standard output and standard error of `olr-tools`, and what is said where a command fails. It needs Python alone.

As in `olr`, what standard output doesn't take is an error, and what standard error doesn't take is lost.
"""

import errno
import os
import sys
from collections.abc import Callable
from contextlib import redirect_stderr, redirect_stdout, suppress
from typing import Any, TextIO, cast

from olr.errors import ToolError, reason_of


class OutputLost(Exception):
    """Standard output didn't take what a command wrote. The cause is the `OSError`."""


def open_missing() -> None:
    """Opens the standard streams that the process was started without, so that no other file gets their numbers: what a library or a
    process of `olr` writes to its standard output would go there. Reading and writing them fail, as for a stream that is closed.
    """
    for number, mode in enumerate((os.O_WRONLY, os.O_RDONLY, os.O_RDONLY)):
        try:
            os.fstat(number)
        except OSError:
            os.set_inheritable(os.open(os.devnull, mode), True)
    sys.stdout = cast(TextIO | None, sys.stdout) or open(1, "w", closefd=False)
    sys.stderr = cast(TextIO | None, sys.stderr) or open(2, "w", closefd=False)


def complain(text: str) -> int:
    """Says on standard error why a command failed, and answers its status."""
    one_line = text.replace("\n", r"\n")
    print(f"olr-tools: {one_line}", file=sys.stderr)
    return 1


def ended(command: Callable[[], int]) -> int:
    """Runs a command, and answers its status: 1 for a `ToolError` and an `OSError`, which are said in one line. So it is where standard
    output didn't take all, unless it is a pipe that nobody reads any more: then nothing is said."""
    output, messages = _Stream(sys.stdout, _raise), _Stream(sys.stderr, _pass_over)
    # A stream has all methods that click and rich ask for.
    with redirect_stdout(cast(TextIO, output)), redirect_stderr(cast(TextIO, messages)):
        try:
            status = command()
            output.flush()
            return status
        except ToolError as error:
            return complain(str(error))
        except OSError as error:
            return complain(reason_of(error))
        except OutputLost as lost:
            cause = cast(OSError, lost.__cause__)
            return (
                1 if cause.errno == errno.EPIPE else complain(f"standard output: {cause.strerror}")
            )
        finally:
            output.give_up_if_broken()
            messages.give_up_if_broken()


class _Stream:
    """A stream, with what is done where it doesn't take what is written."""

    def __init__(self, stream: Any, failed: Callable[[OSError], None]) -> None:
        self._stream, self._failed = stream, failed

    @property
    def buffer(self) -> "_Stream":
        """The stream of bytes below: click writes to that where an encoding lacks what it says."""
        return _Stream(self._stream.buffer, self._failed)

    def write(self, text: str | bytes) -> Any:
        try:
            return self._stream.write(text)
        except OSError as error:
            self._failed(error)
            return len(text)

    def flush(self) -> None:
        try:
            self._stream.flush()
        except OSError as error:
            self._failed(error)

    def give_up_if_broken(self) -> None:
        """Closes the stream if it doesn't take what it has: else Python tries again at its end, complains, and changes the status."""
        try:
            self._stream.flush()
        except OSError:
            with suppress(OSError):
                self._stream.close()

    def __getattr__(self, name: str) -> Any:
        return getattr(self._stream, name)


def _raise(error: OSError) -> None:
    raise OutputLost from error


def _pass_over(error: OSError) -> None:
    """What isn't said is lost."""
