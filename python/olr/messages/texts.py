"""Texts of messages: a reference on one line, what looks like a reference, and what errors show."""

import re
from collections.abc import Iterable

from olr.messages.message import BASE64, Base64
from olr.model.questions import BLANKS
from olr.model.reference import bytes_of

LEAST_BYTES = 7
"""Of a location reference: a position."""
MEANT = re.compile(r"[ACEIKQWgikoqw2][w-z0-9+/_-][\w+/=-]{6,}", re.ASCII)
"""Letters of base64, also that for URLs, of which the first byte is that of a kind of location in version 3: line, point along a
line, position, circle, rectangle, polygon or closed line. With its reserved bit, which the program passes over, it begins with one of
the other seven."""
NO_NAME = re.compile(r"#?n/?a|nan|nil|none|null|(?:[^\w,;|\t\0\ufffd]|[\d_])+", re.IGNORECASE)
"""What stands where there is no reference, and names no column: a word for nothing, or what has no letter in it. Of several cells, and
of what isn't UTF-8, that isn't said."""
_FROM_URLS = str.maketrans("-_", "+/")
_MOST_SHOWN = 100


def begins_like_a_reference(text: str) -> bool:
    """Whether a text is meant as a reference, though it may be damaged. A name isn't."""
    return MEANT.fullmatch(text.strip(BLANKS)) is not None


def looks_like_a_reference(text: str, base64: Base64 = "plain") -> bool:
    """Whether a text begins like a reference, and is such base64."""
    plain = plain_base64(text, base64)
    return begins_like_a_reference(plain) and len(bytes_of(plain)) >= LEAST_BYTES


def names_nothing(text: str) -> bool:
    """Whether a text is neither meant as a reference nor as the name of a column."""
    return NO_NAME.fullmatch(text.strip(BLANKS)) is not None


def require_base64(base64: str) -> None:
    """Raises `ValueError` for what is no `Base64`."""
    if base64 not in BASE64:
        raise ValueError(f"{base64!r} is no base64: give {', '.join(BASE64)}")


def plain_base64(text: str, base64: Base64) -> str:
    """A text in such base64 as plain base64. Of one for URLs that has `=` at its end none may be missing."""
    if base64 == "plain":
        return text
    plain = text.strip(BLANKS).translate(_FROM_URLS)
    return plain if plain.endswith("=") else plain + "=" * (-len(plain) % 4)


def one_line(text: str) -> str:
    """A text of a table or of JSON as a part of one record, so that its answer or fault is that of the text itself. Blanks at the
    ends don't count, and none within is base64."""
    return re.sub("[\t\r\n]", " ", text.strip(BLANKS))


def shown(texts: Iterable[str]) -> str:
    """Some texts on one line, not too long."""
    line = ", ".join(texts)
    begin = "".join(letter if letter.isprintable() else " " for letter in line[:_MOST_SHOWN])
    return begin if len(line) <= _MOST_SHOWN else f"{begin}.."
