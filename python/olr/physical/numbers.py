"""Numbers of fields as whole numbers of a small unit, so that no step of the binary form is missed by a rounding."""

import re
from decimal import ROUND_FLOOR, Context, Decimal, InvalidOperation

from olr.physical.fields import Number

DIGITS = 12
ONE: int = 10**DIGITS
"""So many units are 1: what is smaller than a unit is left off, downwards."""
_PLAIN = re.compile(rf"(-?[0-9]{{1,20}})(?:\.([0-9]{{0,{DIGITS}}}))?")
_NUMBER = re.compile(r"[+-]?(?:[0-9]+\.?[0-9]*|\.[0-9]+)(?:[eE][+-]?[0-9]{1,9})?")
_EXACT = Context(prec=40, rounding=ROUND_FLOOR, traps=[InvalidOperation])
_SHORT = 24
_UNIT = Decimal(1).scaleb(-DIGITS)
_SCALES: list[int] = [10 ** (DIGITS - count) for count in range(DIGITS + 1)]
"""Units of the last digit, by how many digits are behind the point."""


def units_of(value: Number) -> int | None:
    """A number in units; None for what is none, or is beyond any field. A text is a number as XML has it, and blanks at its ends."""
    if isinstance(value, str):
        if len(value) <= _SHORT and value.isascii():
            if value.isdecimal():
                return int(value) * ONE
            whole, _, part = value.partition(".")
            digits = whole + part
            if whole and digits.isdecimal() and len(part) <= DIGITS:
                return int(digits) * _SCALES[len(part)]
        return _of_text(value)
    return value * ONE if isinstance(value, int) else _of_decimal(value)


def _of_text(value: str) -> int | None:
    text = value.strip()
    if plain := _PLAIN.fullmatch(text):
        whole, part = plain.groups("")
        return int(whole + part.ljust(DIGITS, "0"))
    return None if _NUMBER.fullmatch(text) is None else _of_decimal(Decimal(text))


def _of_decimal(value: Decimal | None) -> int | None:
    if value is None:
        return None
    try:
        return int(_EXACT.scaleb(_EXACT.quantize(value, _UNIT), DIGITS))
    except (InvalidOperation, ValueError):
        return None
