"""The version of this package: in a repository that of its CHANGELOG.md, else the one with which the package was installed."""

import re
from pathlib import Path
from typing import NamedTuple

TOP = Path(__file__).resolve().parents[2]
"""The repository that this package lies in, if it lies in one."""

SECTION = re.compile(r"## ([0-9]+\.[0-9]+\.[0-9]+), (unreleased|[0-9]{4}-[0-9]{2}-[0-9]{2})")
"""The title of a section of CHANGELOG.md: its number, and its date or that it has none yet."""


class Section(NamedTuple):
    """A section of CHANGELOG.md: its number, and whether it was released."""

    number: str
    is_released: bool

    @property
    def version(self) -> str:
        """The version of a repository whose newest section this is, as PEP 440 has it. Without a date it is less than what
        `./release` makes of it, which has the number of commits in place of the 0."""
        return self.number if self.is_released else f"{self.number}.dev0"


def sections(changes: str) -> list[Section]:
    """The sections of a CHANGELOG.md, newest first. Raises `ValueError` if a title isn't one of a section."""
    found = []
    for title in re.findall(r"(?m)^## .*$", changes):
        parts = SECTION.fullmatch(title)
        if parts is None:
            raise ValueError(f"{title!r} isn't '## NUMBER, unreleased' or '## NUMBER, DATE'")
        found.append(Section(parts[1], parts[2] != "unreleased"))
    return found


def version(top: Path = TOP) -> str:
    """The version: in a repository the one of its newest section, else the one with which the package was installed. An empty
    text, if there is none: `./release` says why."""
    if not (top / "crates/olr_words").is_dir():
        # Another project may have a CHANGELOG.md above a copy of the package.
        return _installed()
    try:
        found = sections((top / "CHANGELOG.md").read_text(encoding="utf-8"))
    except (OSError, ValueError):
        return ""
    return found[0].version if found else ""


def _installed() -> str:
    """The version with which the package was installed."""
    # It takes a tenth of the time in which a command starts.
    from importlib import metadata

    try:
        return metadata.version("olr")
    except metadata.PackageNotFoundError:
        return ""


VERSION = version()
