"""Which messages somebody checks: a sample of those whose likeliest places can be checked."""

import random
from collections import Counter
from collections.abc import Mapping
from typing import NamedTuple

from olr.confidence.messages import LEAST_CHECKED, start_of_line
from olr.errors import ToolError
from olr.matching.asking import Asked
from olr.messages.message import Message
from olr.model.answers import AnswerOrFault, Places
from olr.model.questions import likely
from olr.model.reference import read_reference
from olr.pages.report.sample import SEED, Drawn
from olr.reservoir import Reservoir

MOST = 20_000
"""So many of the messages that can be checked are held: of more of them some that are drawn."""
NO_LINE, NO_KEY, NO_PLACE = "no line reference", "no key", "no place"
NOT_ONE_LINE = "a key that isn't one line of a file"
SEVERAL = "a key that another reference has too"


class Picked(NamedTuple):
    """The messages that are checked."""

    sample: list[Drawn]
    """In a drawn order, so that the first ones are a sample of all too."""
    possible: int
    """How many can be checked: those with the same key and the same reference are one."""
    others: Counter[str]
    """How many can't, by what they have or lack."""
    lines: int
    """How many messages have a line reference."""


def picked(messages: Asked, numbers: Mapping[str, int], wanted: int) -> Picked:
    """Asks where the references of messages are, and picks as many as are wanted. Raises `ToolError`, also if too few can be checked."""
    picking = Picking()
    for message, answer in messages.answered("places", likely(numbers) | {"most": 1}):
        picking.add(message, answer)
    return picking.picked(wanted)


class Picking:
    """Messages with answers, of which some are picked. It holds `MOST` of them, and a few numbers of each."""

    def __init__(self) -> None:
        self._draws = random.Random(SEED)
        self._some: Reservoir[tuple[int, Message]] = Reservoir(MOST, self._draws)
        self._possible: Counter[int] = Counter()
        self._others: Counter[str] = Counter()
        self._texts: dict[int, int] = {}
        self._several: set[int] = set()
        self._lines = 0

    def add(self, message: Message, answer: AnswerOrFault) -> None:
        """Adds a message, and the answer about its places."""
        reference = read_reference(message.reference)
        if reference is None or reference.kind != "line":
            self._others[NO_LINE] += 1
            return
        self._lines += 1
        if not message.key:
            self._others[NO_KEY] += 1
            return
        key, text = hash(message.key), hash(message.reference)
        if self._texts.setdefault(key, text) != text:
            self._several.add(key)
        if not isinstance(answer, Places) or not answer.places:
            self._others[NO_PLACE] += 1
        elif start_of_line(message.key) is None:
            self._others[NOT_ONE_LINE] += 1
        else:
            self._possible[key] += 1
            self._some.add((answer.places[0].probability or 0, message))

    def picked(self, wanted: int) -> Picked:
        """A systematic sample of those that can be checked, by the probability of their likeliest places; all of them if there are fewer than
        are wanted. Raises `ToolError` if there are too few."""
        others = Counter(self._others)
        for key in self._several & self._possible.keys():
            others[SEVERAL] += self._possible[key]
        each = {
            message.key: (probability, message.record, message)
            for probability, message in self._some.kept
            if hash(message.key) not in self._several
        }
        if len(each) < LEAST_CHECKED:
            raise ToolError(
                f"{LEAST_CHECKED} messages or more are needed for calibrate --checked, and {len(each)} can be checked{others_text(': ', others)}"
            )
        ordered = sorted(each.values(), key=lambda it: it[:2])
        some = [Drawn(ordered[at][2], None) for at in systematic(len(ordered), wanted, self._draws)]
        self._draws.shuffle(some)
        possible = len(self._possible.keys() - self._several)
        return Picked(some, possible, others, self._lines)


def systematic(count: int, most: int, draws: random.Random) -> list[int]:
    """The numbers of some of so many things in a row, from 0: `most` of them, equally far apart, from a drawn one on; or all of them."""
    if count <= most:
        return list(range(count))
    start = draws.randrange(count)
    return [(at * count + start) // most for at in range(most)]


def others_text(before: str, others: Mapping[str, int]) -> str:
    """Which messages can't be checked, and why, behind a text: an empty text if all can."""
    counts = sorted(others.items(), key=lambda it: -it[1])
    parts = [f"{count:,} {'has' if count == 1 else 'have'} {why}" for why, count in counts]
    return f"{before}{', '.join(parts)}" if parts else ""
