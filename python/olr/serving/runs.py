"""Runs that end by themselves: of the program, for its version, and of Python."""

import asyncio
import sys
from pathlib import Path

from olr.asking.once import read_once, run
from olr.asking.starting import command_of

SECONDS_OF_VERSION = 10.0
PACKAGE = Path(__file__).resolve().parents[2]


def python_command(module: str, *words: str) -> list[str]:
    """The command of a process that runs `main` of a module of this package, which lies where the server has it, installed or not."""
    text = f"import sys; sys.path.insert(0, {str(PACKAGE)!r}); from {module} import main; sys.exit(main(sys.argv[1:]))"
    return command_of(sys.executable, ["-P", "-c", text, *words])


async def printed_by(program: Path, words: list[str], seconds: float) -> bytes:
    """What a run of the program prints, without the line end. Raises as `run` and `read_once`."""
    ended = await asyncio.to_thread(run, program, words, seconds)
    return read_once(program, words[0], ended, bytes.rstrip)


async def version_of(program: Path) -> str:
    """What a program says of its version: an empty text if it says nothing. Raises as `printed_by`."""
    printed = await printed_by(program, ["--version"], SECONDS_OF_VERSION)
    return printed.decode("utf-8", errors="replace").rpartition(" ")[2]
