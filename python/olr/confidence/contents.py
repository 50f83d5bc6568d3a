"""The file of a confidence: JSON, as it is written."""

import json

from olr.confidence.confidence import THOUSANDTHS, Confidence
from olr.confidence.weights import WEIGHTS

VERSION = 3
"""Of the form of the file."""


def text_of(confidence: Confidence) -> str:
    """The text of a file: the same for the same confidence, to the byte."""
    differs = confidence.map_differs
    content = {
        "about": confidence.about,
        "apart": confidence.apart,
        "level": confidence.level,
        "map_differs": differs
        and {name: round(value * THOUSANDTHS) for name, value in differs._asdict().items()},
        "tolerances": dict(confidence.tolerances),
        "units": {name: weight.unit for name, weight in WEIGHTS.items()},
        "version": VERSION,
        "weights": dict(confidence.weights),
    }
    return json.dumps(content, indent=1, sort_keys=True, allow_nan=False) + "\n"
