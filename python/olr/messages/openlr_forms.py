"""References in the element form of XML: the texts of their fields, and their binary form."""

from collections.abc import Mapping, Sequence
from typing import Literal, NamedTuple

from olr.messages.openlr_words import ALONG_LINE, LINE, WORDS
from olr.model.fault import Fault
from olr.model.reference import MOST_POINTS
from olr.physical import faults
from olr.physical.fields import PhysicalPoint, PhysicalReference
from olr.physical.writing import base64_of

Texts = dict[str, str]
"""The texts of fields, by their names in `physical.fields`."""
OWN_FIELDS = "positive", "negative", "side", "orientation"
"""Fields of a reference itself."""
_NO_WORD = -1


class _Numbers(dict[str | None, int]):
    """The numbers of words, which may have blanks around them. What isn't there is no word."""

    def __missing__(self, text: str | None) -> int:
        return self.get((text or "").strip(), _NO_WORD)


_CLASSES, _FORMS = _Numbers(WORDS["class_"]), _Numbers(WORDS["form"])
_SIDES, _ORIENTATIONS = _Numbers(WORDS["side"]), _Numbers(WORDS["orientation"])


class FieldTexts(NamedTuple):
    """The texts of a reference, None for what isn't there."""

    kind: Literal["line", "point-along-line"]
    points: Sequence[Sequence[str | None]]
    """Those of each point, in the order of `PhysicalPoint`."""
    own: Sequence[str | None]
    """Those of the reference itself, in the order of `OWN_FIELDS`."""

    def with_numbers(self) -> PhysicalReference:
        """The reference with its numbers."""
        points = [
            PhysicalPoint(
                longitude,
                latitude,
                _CLASSES[class_],
                _FORMS[form],
                bearing,
                _CLASSES[lowest],
                distance,
            )
            for longitude, latitude, class_, form, bearing, lowest, distance in self.points
        ]
        positive, negative, side, orientation = self.own
        if self.kind == LINE:
            return PhysicalReference(LINE, points, positive, negative)
        return PhysicalReference(
            ALONG_LINE,
            points,
            positive,
            negative,
            None if side is None else _SIDES[side],
            None if orientation is None else _ORIENTATIONS[orientation],
        )


class Form:
    """A reference in element form."""

    def __init__(self, names: Mapping[str, str]) -> None:
        self.names = names
        """What the fields are called."""

    def texts(self) -> FieldTexts:
        """The texts of its fields. Raises `Fault` if it has too few elements, or too many."""
        raise NotImplementedError

    def written(self) -> tuple[str, str | None]:
        """The reference in base64, or an empty text and its fault."""
        try:
            return base64_of(self.texts().with_numbers(), self.names), None
        except Fault as fault:
            return "", fault.text


class GrowingForm(Form):
    """A reference whose elements come one after the other."""

    def __init__(self, kind: str | None, names: Mapping[str, str]) -> None:
        super().__init__(names)
        self._kind = kind
        """A kind of location, or the fault of one that isn't read."""
        self.own: Texts = {}
        """Fields of the reference itself."""
        self._points: list[Texts] = []
        self._lasts: list[Texts] = []
        self._count = 0
        """How many points there are but the last: not all of too many are held."""

    def next_point(self, is_last: bool) -> Texts:
        """The fields of a point, which are read next."""
        texts: Texts = {}
        points = self._lasts if is_last else self._points
        self._count += not is_last
        if len(points) <= MOST_POINTS:
            points.append(texts)
        return texts

    def texts(self) -> FieldTexts:
        """The texts of its fields. Raises `Fault` if it has too few elements, or too many."""
        kind, own = self._kind, self.own
        if kind is None:
            kind = ALONG_LINE if "side" in own or "orientation" in own else LINE
        if kind not in (LINE, ALONG_LINE):
            raise Fault(kind)
        if len(self._lasts) != 1:
            raise faults.bad_element(self.names["last"])
        if kind == LINE and self._count >= MOST_POINTS:
            raise faults.too_many_points(self._count + 1)
        if kind == LINE:
            for field in ("side", "orientation"):
                if field in own:
                    raise faults.bad_element(self.names[field])
        points = [
            tuple(map(texts.get, PhysicalPoint._fields)) for texts in (*self._points, *self._lasts)
        ]
        return FieldTexts(
            LINE if kind == LINE else ALONG_LINE, points, tuple(map(own.get, OWN_FIELDS))
        )
