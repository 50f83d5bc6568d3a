"""Maps with a straight road, references along it, and the rows that `olr-tools compare` writes of them."""

import base64
import csv
from collections.abc import Sequence
from pathlib import Path

from conftest import OF_PROGRAM
from olr.tools import run
from region_maps import EAST, WEST, Drawing, Point, Spot, first_position, text_of

ORIGIN = first_position((0, 0))
INTERVAL = 18
"""Of a road of 10,000 microdegrees, 1113.2 m."""
NO_PROBABILITIES = (
    "no probabilities: radius is 100, not 75; bearing is 4, not 6; lowest is 0, not 4; percent is 30, not 15: "
    "make a file with your options by olr-tools calibrate"
)
"""What a summary says by `OF_PROGRAM`."""
Row = dict[str, str]
Pair = tuple[Row, Row]


def at(east: int, north: int) -> Spot:
    """A spot in microdegrees from the origin."""
    return ORIGIN[0] + east, ORIGIN[1] + north


def road(*spots: Spot, drawing: Drawing | None = None, road_class: int = 3) -> Drawing:
    """A map with a road in both directions, or that road added to one."""
    made = drawing or Drawing()
    for way in (spots, spots[::-1]):
        made.line(*(at(*spot) for spot in way), road_class=road_class)
    return made


STRAIGHT = (0, 0), (10_000, 0)
ALONG = text_of([Point(*at(0, 0), EAST, INTERVAL), Point(*at(10_000, 0), WEST)])
"""A reference from one end of the straight road to the other one."""
HALFWAY = base64.b64encode(
    b"\x2b" + base64.b64decode(ALONG)[1:-1] + bytes([WEST | 0x40, 128])
).decode()
"""A point along the line, halfway."""


def pairs(old: Path, new: Path, texts: Sequence[str], *words: object) -> list[Pair]:
    """The rows of references, that of the old map and that of the new one."""
    messages = old.parent / "messages"
    messages.write_text("".join(f"m{number}\t{text}\n" for number, text in enumerate(texts)))
    return pairs_of(old, new, messages, *words)


def pairs_of(old: Path, new: Path, messages: Path, *words: object) -> list[Pair]:
    """The rows of the references of a file."""
    out = messages.parent / "changes.csv"
    given = [
        "compare",
        messages,
        "--map",
        old,
        "--with",
        new,
        "--out",
        out,
        "--force",
        *OF_PROGRAM,
        *words,
    ]
    assert run(list(map(str, given))) == 0
    with out.open(encoding="utf-8", newline="") as stream:
        rows = list(csv.DictReader(stream))
    assert [row["side"] for row in rows] == ["old", "new"] * (len(rows) // 2)
    for one, other in zip(rows[::2], rows[1::2]):
        for name in ("record", "key", "change", "certainty", "agreement", "moved_m"):
            assert one[name] == other[name]
    return list(zip(rows[::2], rows[1::2]))


def metres(row: Row, *names: str) -> list[float]:
    """Lengths of a row."""
    return [float(row[name]) for name in names]
