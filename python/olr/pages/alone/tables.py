"""What the scripts of a page that answers by itself have of Python's tables, as data: faults, and the numbers of questions."""

from typing import Any

from olr.model.fault_table import ROWS
from olr.model.questions import LIKELY, NEAR_OF_PAGES, NUMBERS, TOLERANCES, defaults_of
from olr.model.reasons import NO_REASON, TEXTS


def tables() -> dict[str, Any]:
    """`faults` by the lines of docs/FAULTS.md, each its meaning and what to do; the program's defaults of all `tolerances`, and of the other
    `numbers` and options of each question; `likely`, with which places are asked for; `near`, with which other paths are; and the texts of
    `reasons`.
    """
    return {
        "faults": ROWS,
        "tolerances": {name: number.default for name, number in TOLERANCES.items()},
        "numbers": {what: defaults_of(what) for what in NUMBERS},
        "likely": LIKELY,
        "near": NEAR_OF_PAGES,
        "reasons": {"texts": TEXTS, "none": NO_REASON},
    }
