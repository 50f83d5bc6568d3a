"""How a process of the program is started and ended. On Linux none is left when whoever started it is killed."""

import os
import shutil
import signal
import subprocess
from collections.abc import Sequence
from contextlib import suppress
from pathlib import Path
from typing import Any

from olr.errors import ProgramNotFound

SETPRIV = "setpriv"
"""The command of Linux by which a process ends with the thread that started it, however that ends."""


def command_of(program: str | Path, words: Sequence[str]) -> list[str]:
    """The command that runs the program with some words. Raises `ProgramNotFound` if it isn't one that may be run."""
    if not os.access(program, os.X_OK):
        raise not_started(
            program, "Permission denied" if os.path.exists(program) else "No such file or directory"
        )
    setpriv = shutil.which(SETPRIV)
    before = [] if setpriv is None else [setpriv, "--pdeathsig", "KILL", "--"]
    return [*before, str(program), *words]


def start(program: str | Path, words: Sequence[str], **pipes: Any) -> "subprocess.Popen[bytes]":
    """Starts the program in a process group of its own, with `stdin`, `stdout`, `stderr` and `pass_fds` as `Popen` takes them. It ends with the thread
    that calls this. Raises `ProgramNotFound` if it can't be started."""
    command = command_of(program, words)
    try:
        return subprocess.Popen(command, process_group=0, **pipes)
    except OSError as error:
        raise not_started(program, error.strerror) from error


def not_started(program: str | Path, reason: str | None) -> ProgramNotFound:
    """The error of a program that can't be started."""
    return ProgramNotFound(f"{program} can't be started: {reason}")


def failed_to_start(program: str | Path, said: str) -> ProgramNotFound | None:
    """The error, if what was said on standard error is that the program couldn't be started."""
    if not said.startswith(f"{SETPRIV}: "):
        return None
    return not_started(program, said.splitlines()[0].rpartition(": ")[2])


def kill_group(process: "subprocess.Popen[bytes]") -> None:
    """Kills a process that has a group of its own, and all that it started in it. Where the process was waited for it does nothing."""
    if process.poll() is None:
        kill_group_of(process.pid)


def kill_group_of(leader: int) -> None:
    """Kills the processes of the group of one that nobody waited for yet, by its id."""
    with suppress(ProcessLookupError, PermissionError):
        os.killpg(leader, signal.SIGKILL)
