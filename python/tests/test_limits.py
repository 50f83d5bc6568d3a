"""Limits: what is just within them, and what is just beyond."""

import base64
import io
import pytest
from pathlib import Path

from olr.counts import Counts
from olr.errors import ToolError
from olr.importing.roads import Kind, Road, Source, cut_roads, map_of
from olr.messages.first import with_one
from olr.messages.message import Message, Reading
from olr.messages.reading import messages_in
from olr.messages.texts import looks_like_a_reference
from olr.model.columns import batched_columns, joined_columns, read_columns
from olr.model.road_map import Position

LONG = 65_536
"""Bytes of the longest record (docs/specification/batch.md)."""
PARTS = 5000
"""Parts that a road may have, as docs/IMPORT.md numbers them."""
HEADER = "id,from,to,class,form,length,shape\n"


def line_with(points: int, blank: str = "") -> str:
    """A line of `lines.csv` with so many shape points."""
    shape = ";".join(f"{number} {-number}" for number in range(points))
    return f"{blank}7,1,2,3,3,1113,{shape}\n"


@pytest.mark.parametrize("blank", ["", "0"])
def test_shape_points(blank: str, tmp_path: Path) -> None:
    """A line has 64 at most (docs/GUIDE.md), whether its numbers are written as usual or with leading zeros."""
    file = tmp_path / "lines.csv"
    file.write_text(HEADER + line_with(64, blank))
    found = joined_columns(read_columns("lines", file), "lines")
    assert found.sizes.tolist() == [64] and len(found.points) == 64
    assert found.points[[0, -1]].tolist() == [[0, 0], [63, -63]]
    file.write_text(HEADER + line_with(64, blank) + line_with(65, blank))
    with pytest.raises(ToolError, match="record 2 of the lines isn't one of a map"):
        joined_columns(read_columns("lines", file), "lines")


@pytest.mark.parametrize(
    "record, is_right",
    [
        ((1, 180_000_000, 80_000_000), True),
        ((2**53, -180_000_000, -80_000_000), True),
        ((2**53 + 1, 0, 0), False),
        ((0, 0, 0), False),
        ((1, 180_000_001, 0), False),
        ((1, -180_000_001, 0), False),
        ((1, 0, 80_000_001), False),
        ((1, 0, -80_000_001), False),
    ],
)
def test_numbers_of_nodes(record: tuple[int, int, int], is_right: bool) -> None:
    """Ids are 1 to 2 to the power of 53, and latitudes 80 degrees at most (docs/GUIDE.md)."""
    if is_right:
        assert joined_columns(batched_columns("nodes", [record]), "nodes").numbers.T.tolist() == [
            list(record)
        ]
    else:
        with pytest.raises(ToolError, match="record 1 of the nodes isn't one of a map"):
            joined_columns(batched_columns("nodes", [record]), "nodes")


@pytest.mark.parametrize("end", [b"", b"\n", b"\r\n", b"\r"])
def test_bytes_of_a_record(end: bytes) -> None:
    """A record of 65,536 is read as it is. A longer one has no key, whatever ends it, and a text that is too long; the one behind it is its
    own."""
    behind = b"k\tnext\n" if end.endswith(b"\n") else b""
    for size in (LONG - 1, LONG, LONG + 1, LONG + 2, 3 * LONG):
        text = "y" * (size - 4)
        data = b"\nkey\t" + text.encode() + end + behind
        first, *others = messages_in(io.BytesIO(data), Reading("tab"), "records")
        if size <= LONG:
            assert first == Message(2, "key", text)
        else:
            assert first[:2] == (2, None) and len(first.reference) > LONG
        assert others == ([Message(3, "k", "next")] if behind else [])


@pytest.mark.parametrize(
    "text, is_one",
    [
        # A position has a status byte and two coordinates of three bytes each (docs/SPECIFICATION.md).
        (base64.b64encode(bytes([0x23, *range(6)])).decode(), True),
        (base64.b64encode(bytes([0x23, *range(5)])).decode(), False),
        ("CwVGnSN2zhvHCgDX/tIzAw==", True),
        ("street", False),
    ],
)
def test_bytes_of_a_reference(text: str, is_one: bool) -> None:
    """The shortest one has seven bytes."""
    assert looks_like_a_reference(text) == is_one


@pytest.mark.parametrize("parts", [PARTS, PARTS + 1])
def test_parts_of_a_road(parts: int) -> None:
    """Their lines have ids of their own: beyond the last one parts are left out, and counted."""
    vertices = range(1, parts + 2)
    roads = [
        Road(1, Source("a"), Kind(3, 3, True, True), vertices),
        Road(2, Source("b"), Kind(3, 3, True, False), vertices),
    ]
    positions = {it: Position(10 * it, 0) for it in vertices}
    counts = Counts()
    lines = map_of(cut_roads(roads, positions, counts).parts, positions, [], counts).lines
    ids = [line.id for line in lines]
    assert ids == [*range(10_000, 20_000), *range(20_000, 30_000, 2)]
    left_out = dict(counts.left_out)
    assert left_out == ({} if parts == PARTS else {"parts of a road beyond its first 5,000": 2})


@pytest.mark.parametrize("before, is_right", [(0, True), (99, True), (100, False)])
def test_records_that_are_held_back(before: int, is_right: bool) -> None:
    """One of the first hundred has to be right (docs/MESSAGES.md), and then all of them come."""
    items: list[int] = [*range(before), -1, *range(5)]
    found = with_one(iter(items), lambda item: item < 0, lambda held: ToolError(f"{len(held)}"))
    if is_right:
        assert list(found) == items
    else:
        with pytest.raises(ToolError, match="^100$"):
            list(found)
