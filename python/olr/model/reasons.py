"""Why a place is no more probable than it is, as the program says it, and as a sentence: the one table of texts, which pages get too."""

from collections.abc import Mapping, Sequence
from dataclasses import dataclass
from typing import Literal, NamedTuple

Kind = Literal[
    "turning_back", "longer", "shorter", "distance", "direction", "end", "behind", "lines"
]


class Text(NamedTuple):
    """What is said of a reason of a kind: `{at}` stands for its point or leg, `{by}` for by how much, in another unit than the program's:
    `times` by `per` of it, rounded. It is said from so much on as `least`."""

    text: str
    times: int = 1
    per: int = 1
    least: int = 1


TEXTS: Mapping[Kind, Text] = {
    "turning_back": Text("it turns back"),
    "longer": Text("leg {at} is {by} percent longer than the reference says", per=10),
    "shorter": Text("leg {at} is {by} percent shorter than the reference says", per=10),
    "distance": Text("point {at} lies {by} m beside its line", per=100),
    "direction": Text("the direction at point {at} differs by about {by} degrees", 45, 4),
    "end": Text("point {at} lies {by} m from the proper end of its line", per=10),
    "behind": Text("another place costs {by} points less", per=30),
    # (by most files some four lines are enough for this reason, so most places have it)
    "lines": Text("lines of which any may be missing: {by}", least=15),
}
NO_REASON = "points, directions and lengths are nearly as the reference says"
"""Where no difference is said."""


@dataclass(frozen=True)
class Reason:
    """A difference that alone halves the probability of a place, or more. As a text it is a part of a sentence.

    >>> from olr.model.reasons import Reason
    >>> str(Reason("longer", 83, 2))
    'leg 2 is 8 percent longer than the reference says'
    """

    kind: Kind
    by: int
    """By how much: a leg by thousandths, a point by centimetres from its line or decimetres from its proper end, a direction by sectors, another
    place by thirtieths of a penalty point; and of `lines` how many there are."""
    at: int | None = None
    """The number of the point or leg, from 1."""

    def __str__(self) -> str:
        said = TEXTS[self.kind]
        by = (2 * self.by * said.times + said.per) // (2 * said.per)
        return said.text.format(at=self.at, by=by)


def sentence_of(reasons: Sequence[Reason] | None) -> str | None:
    """The reasons of a place as a sentence; None where the program says none."""
    if reasons is None:
        return None
    return "; ".join(str(one) for one in reasons if one.by >= TEXTS[one.kind].least) or NO_REASON
