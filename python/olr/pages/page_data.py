"""What the scripts of serve's page need to know: tolerances, numbers, profiles and limits."""

from collections.abc import Mapping
from typing import Any

from olr.model.profiles import DEFAULT_PROFILE, PROFILES, about_text, tolerances_of
from olr.model.questions import NUMBERS, TOLERANCES, Number


def page_data(
    places: Mapping[str, Number], body: int, rows: int, tiles: str | None
) -> dict[str, Any]:
    """The data of a page that asks for places with these numbers, whose lists may have so many bytes, and show so many rows."""
    return {
        "tolerances": _numbers(TOLERANCES),
        "numbers": _numbers(places),
        "profiles": [
            {"name": name, "about": about_text(name), "tolerances": tolerances_of(name)}
            for name in PROFILES
        ],
        "profile": DEFAULT_PROFILE,
        "names": {what: list(numbers) for what, numbers in NUMBERS.items()},
        "body": body,
        "rows": rows,
        "tiles": tiles,
    }


def _numbers(numbers: Mapping[str, Number]) -> list[dict[str, Any]]:
    """What fields of numbers show."""
    return [{"name": name} | number._asdict() for name, number in numbers.items()]
