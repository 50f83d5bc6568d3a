"""Elements with references that differ in their texts alone, as most of a file do: only the first ones of a shape are parsed.

The others are split at their texts. Which field has which text is found by reading one of them once more, with letters in place of texts.
"""

import re
from collections.abc import Sequence
from operator import itemgetter
from typing import NamedTuple
from xml.parsers import expat

from olr.errors import ToolError
from olr.messages.openlr_forms import FieldTexts, Form
from olr.messages.openlr_references import References
from olr.model.fault import Fault

MOST_LETTERS = 1 << 14
"""Of an element: longer ones are parsed."""
MOST_SHAPES = 100
"""Elements of other shapes are parsed."""
MOST_TAGS = 20
"""Different tags of elements with references that are looked for."""
MOST_MISSED = 1000
"""If so many more elements have no known shape than have one, none is looked for any more."""
_TAG = re.compile(r"<([\w.:-]+)[\w \t\n.:/#='\"-]{0,500}(?<!/)>", re.ASCII)
"""A tag of usual letters."""
_TEXT = re.compile(r">([\w.+/= -]+)</", re.ASCII)
_BETWEEN = re.compile(r"(?:[\w.:<>/#='\" \t\n-]|\r\n)*", re.ASCII)
"""Tags and blanks. What looks like a text in a comment or in CDATA is none."""
_FIRST_LETTER = 0x100

SplitTexts = Sequence[str | None]
"""The texts of an element, and behind them a None for what isn't there."""


class _FormShape:
    """References in element form whose fields have their texts at the same places."""

    def __init__(self, form: Form, letters: Sequence[str]) -> None:
        """The places are those of the letters that a form has in place of texts. Raises `Fault` for one that isn't written, and `KeyError`
        for other texts."""
        places = {None: -1} | {letter: at for at, letter in enumerate(letters)}
        self._kind, points, own = form.texts()
        self.names = form.names
        self._points = [itemgetter(*(places[letter] for letter in point)) for point in points]
        self._own = itemgetter(*(places[letter] for letter in own))

    def texts(self, texts: SplitTexts) -> FieldTexts:
        """The texts of the fields of a reference."""
        return FieldTexts(self._kind, [of(texts) for of in self._points], self._own(texts))


class _ShapedForm(Form):
    """A reference in element form of a shape."""

    def __init__(self, shape: _FormShape, texts: SplitTexts) -> None:
        self.names = shape.names
        self._shape, self._texts = shape, texts

    def texts(self) -> FieldTexts:
        return self._shape.texts(self._texts)


class _Shape(NamedTuple):
    """What an element with references has in it: no references where the parser is needed."""

    binaries: Sequence[int] = ()
    """The places of the texts of those in binary."""
    forms: Sequence[_FormShape] = ()
    line_ends: int = 0


_NO_SHAPE = _Shape()


class ShapedReferences(References):
    """Goes through elements, and takes the references among them: without the parser where an element has the shape of another one."""

    def __init__(self, name: str) -> None:
        super().__init__(name)
        self._ends: dict[str, str] = {}
        """The tags at the ends of elements with references, by those at their beginnings."""
        self._tags: re.Pattern[str] | None = None
        """What finds such tags: None before one was met, or if there is no use in it."""
        self._shapes: dict[tuple[str, ...], _Shape] = {}
        """By the tags of elements and by what is between their texts."""
        self._missed = 0
        """How many more elements had none of them than had one."""

    def feed(self, piece: bytes) -> None:
        """Goes through the next bytes of the file."""
        text, at = piece.decode("latin-1"), 0
        while tag := self._tags and self._tags.search(text, at):
            start, end = tag.span()
            self.parse(piece[at:end])
            at = end
            if self.begun_at == self.fed_bytes - end + start and not self.contexts:
                at = self._take(tag[0], text, end)
        self.parse(piece[at:])
        begun = self.begun_at - self.fed_bytes + len(piece)
        if begun >= at and (new := _TAG.match(text, begun)) is not None:
            self._look_for(*new.group(0, 1))

    def _take(self, tag: str, text: str, at: int) -> int:
        """Takes the references of an element whose tag has ended here, if its shape is known. Answers where the parser goes on."""
        end = text.find(self._ends[tag], at, at + MOST_LETTERS)
        if end < 0 or self.hears_texts():
            return at
        parts = _TEXT.split(text[at:end])
        between = (tag, *parts[::2])
        binaries, forms, line_ends = self._shapes.get(between, _NO_SHAPE)
        if not (binaries or forms):
            self._miss(*between)
            return at
        self._missed -= 1
        texts = parts[1::2]
        for place in binaries:
            self.add(texts[place])
        for form in forms:
            self.add(_ShapedForm(form, [*texts, None]))
        self.passed_lines += line_ends
        return end

    def _miss(self, tag: str, *between: str) -> None:
        """An element has no known shape: the next one like it may have."""
        key = (tag, *between)
        if key not in self._shapes and len(self._shapes) < MOST_SHAPES:
            self._shapes[key] = _shape(*key, self._ends[tag])
        self._missed += 1
        if self._missed > MOST_MISSED:
            self._tags = None

    def hears_texts(self) -> bool:
        """Whether texts around references are read for another purpose."""
        raise NotImplementedError

    def _look_for(self, tag: str, name: str) -> None:
        """From now on elements with this tag, which has the name, are looked for."""
        if tag not in self._ends and len(self._ends) < MOST_TAGS:
            self._ends[tag] = f"</{name}>"
            self._tags = re.compile("|".join(map(re.escape, self._ends)))


class _Sample(References):
    """Reads one element: its references are left in it."""

    def start(self, name: str, attributes: dict[str, str]) -> None:
        self.depth += 1
        self.start_reference(name, attributes)

    def end(self, name: str) -> None:
        self.end_reference()
        self.depth -= 1

    def take_references(self) -> None:
        """They stay."""


def _shape(tag: str, start: str, *others: str) -> _Shape:
    """The shape of an element with this tag, by what is between its texts, and the tag at its end."""
    if not all(map(_BETWEEN.fullmatch, (start, *others))):
        return _NO_SHAPE
    letters = [chr(_FIRST_LETTER + number) for number in range(len(others) - 1)]
    content = start + "".join(f">{letter}</{other}" for letter, other in zip(letters, others))
    sample = _Sample("")
    sample.make_parser("UTF-8")
    try:
        sample.parse(f"{tag}{content}{others[-1]}".encode())
        if sample.open_elements() or sample.binaries and sample.forms:
            return _NO_SHAPE
        binaries = [letters.index(text) for text in sample.binaries]
        forms = [_FormShape(form, letters) for form in sample.forms]
        return _Shape(binaries, forms, content.count("\n"))
    except (expat.ExpatError, ToolError, Fault, KeyError, ValueError):
        return _NO_SHAPE
