"""Questions as what is made of their answers needs them: places in the likely order and in detail, and what is drawn with shapes."""

from olr.asking.exchange import Asked
from olr.model.box import Box
from olr.model.questions import all_words, box_words, likely

SHAPE = "--shape"
"""The word of what is drawn."""


def likely_of(asked: Asked) -> Asked:
    """What is asked for `places` that are shown; other questions stay as they are."""
    if asked.what != "places":
        return asked
    return Asked(asked.what, tuple(all_words(likely(asked.numbers()))))


def shaped(asked: Asked) -> Asked:
    """The same asked with shapes."""
    return asked if SHAPE in asked.words else asked._replace(words=(*asked.words, SHAPE))


def text_within(box: Box) -> bytes:
    """The text of a record that asks about the lines in a box, with shapes."""
    return " ".join(("lines", *box_words(box), SHAPE)).encode()
