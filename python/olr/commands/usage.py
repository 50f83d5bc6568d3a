"""What is said of words that `olr-tools` doesn't understand: one line that names them and says what to do."""

import click
import re
from collections.abc import Iterable
from difflib import get_close_matches

OF_PROGRAM = {
    "batch": "batch places",
    "candidates": "candidates REF",
    "explain": "explain NAME",
    "places": "places REF",
    "show": "show REF",
    "why": "why REF",
}
"""The commands of `olr` that `olr-tools` doesn't have, each with what follows it first."""
REFERENCE = re.compile(r"[CK]w[A-Za-z0-9+/_-]{10,}={0,2}")
"""What a reference looks like whose version is 3."""
PLAIN = {
    " is not a valid integer range": " is not a whole number",
    " is not a valid integer": " is not a whole number",
    " is not a valid float range": " is not a number",
    " is not a valid float": " is not a number",
}
"""Words of click, and plain ones in their place."""


def usage_line(error: click.UsageError) -> str:
    """The line of a usage error, with the command whose help has more."""
    said = " ".join(error.format_message().split()).removesuffix(".")
    if isinstance(error, click.NoSuchOption):
        said = f"No such option: {error.option_name}{_meant(error.possibilities or ())}"
    for words, plain in PLAIN.items():
        said = said.replace(words, plain)
    command = "olr-tools" if error.ctx is None else error.ctx.command_path
    return f"{said} (see {command} --help)"


def no_such_command(name: str, commands: Iterable[str]) -> str:
    """What is said of a word that is none of the commands, but perhaps meant as one, or something else."""
    said = f"No such command {name!r}"
    if name in OF_PROGRAM:
        return f"{said}: it is a command of olr, such as olr {OF_PROGRAM[name]}"
    if REFERENCE.fullmatch(name):
        return f"{said}: it looks like a reference, which olr show reads and olr-tools view draws"
    return said + _meant(get_close_matches(name, commands))


def _meant(names: Iterable[str]) -> str:
    """What may have been meant, behind a colon."""
    found = " or ".join(sorted(names))
    return f": did you mean {found}?" if found else ""
