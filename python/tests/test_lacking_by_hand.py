"""What would help references that fit nowhere, by hand: each counts once, for the first change that helps it."""

from typing import cast

import olr
from olr.matching.lacking import Lacking
from olr.model.answers import Remedy, Verdict, Why

FOUND = "8:1.1"


def why(*remedies: Remedy) -> Why:
    """Why a reference fits nowhere, with what was tried."""
    return Why((), (), remedies, Verdict("leg", 1))


def test_each_reference_counts_once() -> None:
    """By the first change with which it has a matching, and not by one that leads no farther."""
    lacking = Lacking(cast(olr.Map, None), None)
    helped: list[Why | olr.Fault] = [
        why(Remedy("radius", FOUND, 200), Remedy("bearing", FOUND, 6)),
        why(Remedy("radius", None, 150), Remedy("lowest", FOUND, 1)),
        why(Remedy("lowest", FOUND, 2)),
        why(),
        olr.Fault("Empty"),
    ]
    lacking.add_answered(["x"] * 5, helped)
    assert lacking.by_option == {"radius": 1, "lowest": 2}
    assert lacking.line() == (
        "fit nowhere: 5; of these 3 with one option changed, most often --lowest (2)"
    )
