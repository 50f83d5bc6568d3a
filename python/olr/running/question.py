"""What a run is asked: all on which its lines depend."""

from collections.abc import Mapping
from dataclasses import asdict, dataclass
from typing import Any

from olr.content import Content
from olr.messages.message import KEY, REF, Base64, Format
from olr.model.questions import TOLERANCES, Setting, What, settings_of
from olr.running.identity import Build


@dataclass(frozen=True)
class Question:
    """All on which the lines of a run depend, and in which part each of them is. What was left out is at its default here, so that it is
    the same question if it is given."""

    messages: Content
    store: str
    """The digest of the map, which is a store or a folder."""
    program: Build
    what: What
    options: Mapping[str, Setting]
    """All tolerances and other numbers, by their names, and the options that were given."""
    per_group: int | None = None
    """The most records of a group, or None for as many as there usually are of so many records."""
    format: Format = "tab"
    """Of the file of messages, as the next three."""
    ref: str = REF
    key: str = KEY
    base64: Base64 = "plain"
    confidence: str | None = None
    """The digest of the file of a confidence by which places have probabilities; None for other questions."""

    def of_lines(self) -> dict[str, Any]:
        """What a line depends on besides its record."""
        table = asdict(self)
        names = ("store", "program", "what", "options", "confidence")
        return {name: table[name] for name in names}


def all_settings(what: What, given: Mapping[str, Setting]) -> dict[str, Setting]:
    """The tolerances and the other numbers of a question, those that weren't given at their defaults, and the options that were given."""
    tolerances = {name: given.get(name, number.default) for name, number in TOLERANCES.items()}
    return tolerances | settings_of(what, given)
