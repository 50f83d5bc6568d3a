"""What the program says of its commands and options in its helps, read by itself, beside `release.words`."""

import re
from collections.abc import Iterator

from conftest import Program


def section(text: str, title: str) -> str:
    """A section of a help."""
    return f"{text}\n\n".partition(f"\n{title}:\n")[2].partition("\n\n")[0]


def names_in(text: str) -> set[str]:
    """The commands that a help lists."""
    return set(re.findall(r"(?m)^  ([a-z-]+)", section(text, "Commands")))


def options_in(text: str) -> set[str]:
    """The options that a help lists, by their long names."""
    return set(re.findall(r"(?m)^ +(?:-\w, )?(--[a-z-]+)", section(text, "Options")))


def every_help(program: Program, *words: str) -> Iterator[tuple[tuple[str, ...], str]]:
    """The words of each command, none for the program itself, with its help."""
    text = program.run(*words, "--help").stdout
    yield words, text
    for name in sorted(names_in(text) - {"help"}):
        yield from every_help(program, *words, name)
