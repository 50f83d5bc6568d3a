"""One run of the program that needs no map: `olr.decode`, and what a program says of its version."""

import subprocess
from collections.abc import Callable, Sequence
from pathlib import Path
from typing import TypeVar

from olr.asking.patience import PATIENCE
from olr.asking.program import PathLike, find_program
from olr.asking.starting import failed_to_start, kill_group, start
from olr.errors import ProgramEnded, TimedOut
from olr.model.answers import Reference
from olr.model.fault import refusal_of
from olr.model.objects import reference
from olr.model.questions import record_text

Made = TypeVar("Made")
Ended = tuple[int, bytes, bytes]
"""The status of a run, what it printed, and what it said on standard error."""


def run(program: Path, words: Sequence[str], patience: float) -> Ended:
    """A run of the program, which may take so many seconds. Raises `ProgramNotFound` and `TimedOut`."""
    pipe = subprocess.PIPE
    with start(program, words, stdin=subprocess.DEVNULL, stdout=pipe, stderr=pipe) as process:
        try:
            printed, errors = process.communicate(timeout=patience)
            return process.returncode, printed, errors
        except subprocess.TimeoutExpired as error:
            raise TimedOut(
                f"olr {words[0]} didn't end within {patience:g} seconds", words[-1]
            ) from error
        finally:
            kill_group(process)


def decode(ref: str, program: PathLike | None = None) -> Reference:
    """What a reference says: its kind, its points and its offsets. It needs no map. `ref` is the text of one in base64.

    Raises `Fault` if the text isn't a reference, `TypeError` if it is no text, `ProgramNotFound` if the program isn't built, and
    `TimedOut` if it doesn't end within a minute. `find_program` says which program is run.

    >>> import olr
    >>> reference = olr.decode("CwVF/yN2yRpnBAFUAAgbpwYBAf9kK0Fa")
    >>> reference
    <Reference: line, 3 points>
    >>> reference.points[0].lat / 1e6, reference.points[0].lon / 1e6
    (49.871246, 7.415739)
    """
    words = ["show", "--format", "json", "--", record_text(ref).decode()]
    named = find_program(program)
    return read_once(named, words[0], run(named, words, PATIENCE), reference)


def read_once(
    program: str | Path, command: str, ended: Ended, read: Callable[[bytes], Made]
) -> Made:
    """What a run of a command of the program printed that has ended, read by a function that raises `ValueError` for what is no answer. Raises
    `Fault`, `MapRefused`, `ProgramNotFound` if it couldn't be started, and `ProgramEnded` if it isn't the program, or was killed.
    """
    status, printed, errors = ended
    said = errors.decode("utf-8", errors="replace").strip()
    if status == 1 and said.startswith("olr: "):
        raise refusal_of(said.splitlines()[0].removeprefix("olr: "))
    wrong = f"olr {command} ended with status {status}: is it the program olr?"
    if status:
        raise failed_to_start(program, said) or ProgramEnded(wrong)
    try:
        return read(printed)
    except ValueError as error:
        raise ProgramEnded(f"{wrong} ({error})") from error
