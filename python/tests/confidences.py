"""Confidences that tests make by hand, and the terms of places."""

import numpy as np
from collections.abc import Mapping, Sequence
from math import log2
from pathlib import Path
from typing import Any

from olr.confidence.confidence import Confidence, Range
from olr.confidence.contents import text_of
from olr.confidence.terms import Terms
from olr.confidence.weights import ORDER, WEIGHTS
from olr.model.profiles import PROGRAM, tolerances_of
from olr.model.questions import NUMBERS

OF_NONE = 0.6
"""How often none of an answer's places is the right one, beside each of them, by an even confidence."""
FEED = {"references": 1000, "statistics": {}}
"""What a file says of the feed that it was made for."""


def write_confidence(
    file: Path,
    differs: Range | None = None,
    feed: Mapping[str, Any] | None = None,
    profile: str = PROGRAM,
    **weights: int,
) -> Path:
    """Writes a confidence for the tolerances of a profile. Without weights all places of an answer are as probable by it: of `n` places each
    has a probability of 1 / (n + `OF_NONE`)."""
    about = {"map": {}, "parts": [], "program": "1.0.0", "references": 0, "right": 0.9, "seed": 1}
    confidence = Confidence(
        tolerances=tolerances_of(profile),
        apart=NUMBERS["places"]["apart"].default,
        weights={**dict.fromkeys(WEIGHTS, 0), "none": round(log2(OF_NONE) * ORDER), **weights},
        map_differs=differs,
        about={**about, "feed": feed, "differ": None},
    )
    file.write_text(text_of(confidence))
    return file


def made_terms(sizes: Sequence[int], counts: Sequence[int], **others: Any) -> Terms:
    """Those of answers with so many places, which have so many points: but for the others all is as the references tell it."""
    places, points = len(counts), sum(counts)
    legs = points - places
    usual: dict[str, Any] = {
        "costs": np.zeros(places, int),
        "turns_back": np.zeros(places, np.bool_),
        "lines": np.full(places, 1),
        "end": np.zeros(points, int),
        "distance": np.zeros(points, int),
        "sectors": np.zeros(points, int),
        "classes": np.zeros(points, int),
        "other_form": np.zeros(points, np.bool_),
        "least": np.full(legs, 4414),
        "greatest": np.full(legs, 4999),
        "length": np.full(legs, 4700),
    }
    given = {name: np.array(value) for name, value in others.items()}
    return Terms(sizes=np.array(sizes), counts=np.array(counts, int), **usual | given)
