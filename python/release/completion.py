"""Completion for shells. That of `olr` is a table of its words, as its help has them, in a script for each shell; that of
`olr-tools` asks the command itself."""

from collections.abc import Iterable, Iterator, Mapping
from pathlib import Path

from release.files import Entry
from release.filling import text_of
from release.words import EXPLAIN, HELP, Command, Option, commands_of, faults_of

SHELLS = {
    "bash": "share/bash-completion/completions/{}",
    "zsh": "share/zsh/vendor-completions/_{}",
    "fish": "share/fish/vendor_completions.d/{}.fish",
}
"""The shells, and where those of Debian look for the completion of a command."""


def of_program(program: Path) -> dict[str, bytes]:
    """Completion of the words of a program, by the names of shells."""
    faults = (f"{EXPLAIN}|{name}||{meaning}" for name, meaning in faults_of(program).items())
    table = "\n".join([*_rows(commands_of(program)), *faults])
    quoted = table.replace("\\", "\\\\").replace("'", "\\'")
    tables = {"bash": table, "zsh": table, "fish": quoted}
    return {shell: text_of(f"olr.{shell}", TABLE=tables[shell]) for shell in SHELLS}


def of_tools() -> dict[str, bytes]:
    """Completion of the words of `olr-tools`, by the names of shells."""
    return {shell: text_of(f"olr-tools.{shell}") for shell in SHELLS}


def entries(command: str, scripts: Mapping[str, bytes]) -> list[Entry]:
    """The completion of a command, as files where shells look for it."""
    return [Entry(SHELLS[shell].format(command), script) for shell, script in scripts.items()]


def _rows(commands: Iterable[Command]) -> Iterator[str]:
    """What may follow each command, as rows: the command, a word, what the word takes, and what it is for."""
    for command in commands:
        words = " ".join(command.words)
        for name, purpose in command.below.items():
            yield f"{words}|{name}||{purpose}"
        for option in command.options:
            yield f"{words}|{option.name}|{_takes(option)}|{option.purpose}"
        for helping in _helping(command):
            for name, purpose in command.below.items():
                if name != HELP:
                    yield f"{helping}|{name}||{purpose}"


def _helping(command: Command) -> list[str]:
    """The words that ask for help on the commands below one: `help batch` and `batch help`."""
    ways = [(HELP, *command.words), (*command.words, HELP)]
    return sorted({" ".join(words) for words in ways}) if command.below else []


def _takes(option: Option) -> str:
    """What an option takes, as rows have it: `file`, `folder`, `=` with words, `text` for any, or nothing."""
    if option.takes in ("FILE", "FOLDER"):
        return option.takes.lower()
    if option.values != ("",):
        return f"={' '.join(option.values)}"
    return "text" if option.takes else ""
