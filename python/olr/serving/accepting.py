"""What a client says that it likes, by the fields Accept and Accept-Encoding, and what an answer says that it depends on, by Vary."""

import re
from collections.abc import Iterable

MOST_REMEMBERED = 256
"""Fields whose meaning is remembered. Browsers and libraries send a few."""
Field = tuple[bytes, bytes]
"""Of a head, with its name in small letters."""

WEIGHT = re.compile(r"q=(0(?:\.[0-9]{0,3})?|1(?:\.0{0,3})?)", re.IGNORECASE)
"""How well a client likes something, from 0 for not at all to 1: 1 where it doesn't say so."""


def weights_of(field: str) -> dict[str, float]:
    """What a field names, in small letters, and how well that is liked."""
    weights: dict[str, float] = {}
    for item in field.split(","):
        name, *parameters = (part.strip() for part in item.split(";"))
        said = filter(None, map(WEIGHT.fullmatch, parameters))
        weights[name.lower()] = next((float(weight[1]) for weight in said), 1.0)
    return weights


def field_of(fields: Iterable[Field], wanted: bytes) -> str:
    """A field of a head whose values may be in several of that name."""
    found = [value for name, value in fields if name == wanted]
    return b",".join(found).decode("latin-1") if found else ""


def depending_on(fields: Iterable[Field], name: bytes) -> list[Field]:
    """The fields of an answer that depends on one of the request besides, as its one field Vary says."""
    kept = list(fields)
    for place, (other, said) in enumerate(kept):
        if other == b"vary":
            kept[place] = b"vary", b"%b, %b" % (said, name)
            return kept
    kept.append((b"vary", name))
    return kept
