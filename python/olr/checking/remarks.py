"""What a map should be looked at for, by names, so that a job can fail for it."""

from collections.abc import Mapping
from typing import NamedTuple

from olr.errors import ToolError


class Remark(str):
    """A line about something that a map should be looked at for, with its name, and how many there are of it."""

    subject: str
    number: int

    def __new__(cls, text: str, subject: str, number: int) -> "Remark":
        made = super().__new__(cls, text)
        made.subject, made.number = subject, number
        return made


class About(NamedTuple):
    """What is counted by a name."""

    what: str
    usual: int = 0
    """How many each good map has."""
    is_of_any_size: bool = False
    """Whether a map beyond the limits of `olr` is looked at for it."""


NAMES: Mapping[str, About] = {
    "close-to-the-limit": About("files with more than nine tenths of what olr reads", 0, True),
    "dead-ends": About("dead ends"),
    "ids": About("lines without a record in ids.csv, and records without a line", 0, True),
    "islands": About("parts that can neither be entered nor left"),
    "lengths": About("lines whose length is far from that of their shape"),
    "near-dead-ends": About("dead ends near a node that they aren't joined to"),
    "networks": About("networks", 1),
    "nodes-without-a-line": About("nodes without a line"),
    "parts": About("strongly connected parts", 1),
    "passages": About("parts that can be passed once"),
    "round-the-earth": About("lines that go more than half round the earth", 0, True),
    "sources": About("parts that can be left but not entered"),
    "traps": About("parts that can be entered but not left"),
    "unit": About("units in which the lengths may be instead of decimetres"),
}
"""What can be asked for by `--fail`."""


class Limits:
    """How many there may be of what, and how many there are."""

    def __init__(self, allowed: Mapping[str, int]) -> None:
        """`allowed` has numbers by names."""
        self._allowed = allowed
        self._found = dict.fromkeys(allowed, 0)

    def count(self, line: str) -> None:
        """Counts what a line says."""
        if isinstance(line, Remark) and line.subject in self._found:
            self._found[line.subject] += line.number

    def require_looked_at(self, map_name: object) -> None:
        """Raises `ToolError` for a limit of what a map beyond the limits of `olr` isn't looked at for."""
        for name in self._allowed:
            if not NAMES[name].is_of_any_size:
                raise ToolError(
                    f"{map_name} is beyond the limits of olr, and isn't looked at for {name}: leave out --fail {name}"
                )

    def passed(self) -> list[str]:
        """What is said of each limit that is passed."""
        return [
            f"{name} {self._found[name]:,} ({NAMES[name].what}), more than the {most:,} of --fail {name}"
            for name, most in self._allowed.items()
            if self._found[name] > most
        ]
