"""The words that a program takes, as its help lists them: the table of which completion and the numbers of the man page are made."""

import re
import subprocess
from collections.abc import Iterator
from pathlib import Path
from typing import NamedTuple

from olr.errors import ToolError

OPTION_ROW = re.compile(r"(?m)^ +(?:-\w, )?(--[a-z-]+)(?: <([A-Z,]+)>)?  +(.*)$")
"""An option in a help: its name, what it takes, and what it is for."""

COMMAND_ROW = re.compile(r"(?m)^  ([a-z-]+)  +(.*)$")
"""A command in a help: its name, and what it is for."""

REMARK = re.compile(r" \[(default|possible values): ([^]]*)\]")
"""What the help of an option says at its end."""

HELP = "help"
"""The command that takes the names of others."""

EXPLAIN = "explain"
"""The command that takes the names of faults, and lists them."""


class Option(NamedTuple):
    """An option: its name with dashes; what it takes, as `FILE`, `N` or `W,S,E,N`, or an empty text; what it is for; its default, and its
    values if they are few."""

    name: str
    takes: str
    purpose: str
    default: str
    values: tuple[str, ...]


class Command(NamedTuple):
    """A command: its words, as `batch match`, none for the program itself; its options; the commands below it, by their names, and
    what they are for."""

    words: tuple[str, ...]
    options: tuple[Option, ...]
    below: dict[str, str]


def commands_of(program: Path) -> list[Command]:
    """All commands of a program, the program itself first. Raises `ToolError` if a help can't be read."""
    return list(_commands(program, ()))


def faults_of(program: Path) -> dict[str, str]:
    """The names of the faults that a program explains, and what each means. Raises `ToolError` if it lists none."""
    lines = _printed(program, (EXPLAIN,)).splitlines()
    found = {line.partition(":")[0].split(" ")[0]: line.partition(": ")[2] for line in lines}
    if not found:
        raise ToolError(f"{program} explains no faults")
    return found


def numbers_of(command: Command) -> list[Option]:
    """The options of a command that take a number."""
    return [option for option in command.options if option.takes == "N"]


def _commands(program: Path, words: tuple[str, ...]) -> Iterator[Command]:
    """A command of a program, and those below it."""
    text = _printed(program, (*words, "--help"))
    options = tuple(_options(_section(text, "Options")))
    if not options:
        raise ToolError(f"{program} lists no options of {' '.join(words) or 'its own'}")
    below = dict(COMMAND_ROW.findall(_section(text, "Commands")))
    yield Command(words, options, below)
    for name in below:
        if name != HELP:
            yield from _commands(program, (*words, name))


def _printed(program: Path, words: tuple[str, ...]) -> str:
    """What a program prints."""
    try:
        command = [str(program), *words]
        return subprocess.run(command, capture_output=True, text=True, check=True).stdout
    except (OSError, subprocess.CalledProcessError) as error:
        raise ToolError(f"{program} doesn't answer {' '.join(words)}: {error}") from error


def _section(text: str, title: str) -> str:
    """A section of a help."""
    return f"{text}\n\n".partition(f"\n{title}:\n")[2].partition("\n\n")[0]


def _options(rows: str) -> Iterator[Option]:
    """The options of a section."""
    for name, takes, text in OPTION_ROW.findall(rows):
        remarks = dict(REMARK.findall(text))
        values = tuple(remarks.get("possible values", "").split(", "))
        yield Option(name, takes, REMARK.sub("", text), remarks.get("default", ""), values)
