"""What tests of profiles share."""

from collections.abc import Sequence
from pathlib import Path

from conftest import TOP
from olr.model.questions import TOLERANCES
from olr.tools import run

EXAMPLES = TOP / "examples"
MESSAGES, UNMATCHED = EXAMPLES / "messages.tsv", EXAMPLES / "unmatched.tsv"
LACKING = "CwVGnSN2zhtnBgEB/2IjAQ=="
"""It fits nowhere with the program's own tolerances."""
DEFAULTS = {name: number.default for name, number in TOLERANCES.items()}


def words_of(tolerances: dict[str, int]) -> list[str]:
    """Tolerances as words of the program."""
    return [word for name, value in tolerances.items() for word in (f"--{name}", str(value))]


def texts_of(file: Path) -> list[str]:
    """The references of a file of keys, tabs and references."""
    return [line.split("\t")[1] for line in file.read_text().splitlines()]


def tools(words: Sequence[object]) -> int:
    """Runs `olr-tools`."""
    return run(list(map(str, words)))
