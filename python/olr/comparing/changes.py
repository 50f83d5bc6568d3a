"""What changes for a reference with another map.

The **change** of a reference is the first of these that holds:

| change | old map | new map |
|---|---|---|
| `refused` | a fault on either: on both, such as that of a text that is no reference, or on one of them alone | |
| `none` | no place | no place |
| `lost` | a place | no place |
| `found` | no place | a place |
| `same` | the likeliest place | covers the same stretch: see `places` |
| `moved` | the likeliest place | is another stretch |

Beside it the **certainty** of a reference that has a place on both maps says whether there is no second place. An answer is certain if it
is `unique`. If it is `ambiguous` there is a second place, and if it is `open` there may be one, so that neither is certain:

| old map | `unique` on the new map | `open` | `ambiguous` |
|---|---|---|---|
| `unique` | same | less | less |
| `open` | more | same | same |
| `ambiguous` | more | same | same |
"""

from collections.abc import Mapping
from typing import Literal, NamedTuple

from olr.comparing.places import Answer, Difference, Limits, Shape, difference
from olr.messages.message import Message
from olr.model.answers import PlaceOfReference, Places, Why
from olr.model.fault import Fault

Change = Literal["same", "moved", "lost", "found", "none", "refused"]
Certainty = Literal["same", "less", "more"]
Refusing = Literal["both", "new", "old"]
REFUSING: Mapping[Refusing, str] = {
    "both": "both maps",
    "new": "the new map alone",
    "old": "the old map alone",
}
"""Which map refuses a reference, as it is said."""


class Side(NamedTuple):
    """What one of the maps says of a reference."""

    answer: Answer
    shape: Shape | None
    """Of the likeliest place, if there is one."""
    why: Why | Fault | None = None
    """Of a reference that has no place there."""

    def fault(self) -> str | None:
        """Why the map refuses the reference, or why it isn't said what stands in its way."""
        return next((it.text for it in (self.answer, self.why) if isinstance(it, Fault)), None)

    def place(self) -> PlaceOfReference | None:
        """The likeliest place, if there is one."""
        return self.answer.places[0] if isinstance(self.answer, Places) and self.answer else None


class Compared(NamedTuple):
    """A reference on both maps."""

    message: Message
    change: Change
    certainty: Certainty | None
    """None where a map has no place."""
    difference: Difference | None
    """None where a map has no place."""
    old: Side
    new: Side

    @property
    def agreement(self) -> float | None:
        """How far both maps agree on it, 0 to 1. None where a map has no place, or neither place has a length."""
        return None if self.difference is None else self.difference.agreement

    def is_cut_off(self) -> bool:
        """Whether a map may have another place for it: looking was cut off before."""
        answers = (self.old.answer, self.new.answer)
        return any(isinstance(one, Places) and bool(one.cut) for one in answers)

    def is_changed(self) -> bool:
        """Whether something is otherwise with the new map: the place, how certain it is, or whether the reference is refused."""
        if self.change == "refused":
            return self.refusing() != "both"
        return self.change in ("moved", "lost", "found") or self.certainty in ("less", "more")

    def words(self) -> str:
        """The change, and of a reference that is refused by which map. A fault of the text itself is one of both."""
        return (
            f"refused by {REFUSING[self.refusing()]}" if self.change == "refused" else self.change
        )

    def has_no_place_any_more(self) -> bool:
        """Whether it has a place on the old map and none on the new one: it is lost, or refused there."""
        return self.old.shape is not None and self.new.shape is None

    def refusing(self) -> Refusing:
        """Which map refuses a reference that is refused."""
        old, new = (isinstance(side.answer, Fault) for side in (self.old, self.new))
        return "both" if old and new else "old" if old else "new"

    def faults(self) -> list[str]:
        """The names of the faults with which it is refused: one of both maps once."""
        answers = (self.old.answer, self.new.answer)
        return list(dict.fromkeys(it.name for it in answers if isinstance(it, Fault)))


def compared(message: Message, old: Side, new: Side, limits: Limits) -> Compared:
    """A reference with what changes for it."""
    if isinstance(old.answer, Fault) or isinstance(new.answer, Fault):
        return Compared(message, "refused", None, None, old, new)
    if old.shape is None or new.shape is None:
        return Compared(message, _change_without(old, new), None, None, old, new)
    found = difference(old.shape, new.shape, limits)
    certainty = _certainty(old.answer, new.answer)
    return Compared(message, "same" if found.is_same else "moved", certainty, found, old, new)


def _change_without(old: Side, new: Side) -> Change:
    """The change of a reference that has no place on one of the maps."""
    if old.shape is not None:
        return "lost"
    return "none" if new.shape is None else "found"


def _certainty(old: Places, new: Places) -> Certainty:
    """Whether the place on the new map is more certain."""
    before, after = old.verdict == "unique", new.verdict == "unique"
    return "same" if before == after else "more" if after else "less"
