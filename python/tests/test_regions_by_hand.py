"""Discs, boxes and blocks of stores by hand: what is just within, and what just beyond."""

import numpy as np
import pytest
import sqlite3
from collections.abc import Sequence
from pathlib import Path

from olr.model.road_map import MICRODEGREE
from olr.regions.blocks import Block, Blocks, Directory, digest_of_parts
from olr.regions.index import outwards
from olr.regions.making import make_store_of_folder
from olr.regions.options import Options
from olr.regions.plane import Disc, Discs, scale_at
from olr.regions.records import RecordFile, Records, copy_pieces
from olr.regions.store import Store
from stores import folder_of


def test_distances_from_boxes() -> None:
    """Of the nearest and of the farthest position of a box, in the plane's metres."""
    scale = scale_at(60_000_000)
    disc = Discs.of([Disc(0.0, 60_000_000.0, 100.0, scale)])
    assert scale == pytest.approx(5000, abs=15)
    east = 1000 * MICRODEGREE * scale / 10_000
    north = 1000 * MICRODEGREE
    edges = [np.array([float(it)]) for it in (-3000, 60_001_000, 1000, 60_002_000)]
    assert disc.distances(*edges)[0] == pytest.approx(north)
    assert disc.farthest(*edges)[0] == pytest.approx(np.hypot(3 * east, 2 * north))
    west, _, most_east, _ = disc.boxes()
    assert most_east[0] - west[0] == pytest.approx(2 * 100 / MICRODEGREE * 10_000 / scale)


@pytest.mark.parametrize("side", [-1, 1])
def test_edges_in_fewer_bits(side: int) -> None:
    """They are rounded to the outside, so that no box is smaller."""
    edges = np.array([7.4187735, -49.8712964, 0.1, 0.5, -0.1])
    found = outwards(edges, side).astype(np.float64)
    assert ((found - edges) * side >= 0).all()
    assert np.abs(found - edges).max() < 1e-5 and found[3] == 0.5


def block_of(boxes: Sequence[tuple[int, int, int, int]]) -> Block:
    """A block with lines of these boxes, numbered from 1."""
    edges = np.array(boxes, dtype=np.int32).reshape(-1, 4).T
    ids = np.arange(1, len(boxes) + 1)
    none = np.zeros((2, 0), dtype=np.int64)
    ends = np.zeros((2, len(boxes)), dtype=np.int64)
    records = Records.of([b"1,0,0\n"]), Records.of([b"x\n"] * len(boxes))
    return Block(ids, edges, ends, np.array([1]), none, *records)


@pytest.mark.parametrize(
    "box, meets",
    [
        ((0, 0, 10, 10), True),
        ((20, 0, 30, 10), True),
        ((21, 0, 30, 10), False),
        ((-30, 0, 0, 10), True),
        ((-30, 0, -1, 10), False),
        ((0, 20, 10, 30), True),
        ((0, 21, 10, 30), False),
        ((0, -30, 10, 0), True),
        ((0, -30, 10, -1), False),
    ],
)
def test_boxes_that_touch(box: tuple[int, int, int, int], meets: bool) -> None:
    """Edges belong to boxes."""
    block = block_of([(0, 0, 20, 20)])
    found = block.meeting(np.array([box], dtype=np.int32).T)
    assert found.tolist() == ([0] if meets else [])


def test_blocks_of_many_levels() -> None:
    """Each of some thousand is found, where it is and nowhere else."""
    boxes = [(10 * number, -number, 10 * number + 5, number) for number in range(2000)]
    directory = Directory(np.array(boxes, dtype=np.int32).T, [b""] * 2000)
    blocks = Blocks(sqlite3.connect(":memory:"), directory)
    for number in (0, 1, 31, 32, 33, 1023, 1024, 1999):
        west, south, east, north = boxes[number]
        asked = np.array([(east, north, east, north), (west, south, west, south)], dtype=np.int32)
        assert [one for one, _ in blocks.meeting(asked.T)] == [number]
    beside = np.array([(7, 0, 8, 0)], dtype=np.int32)
    assert list(blocks.meeting(beside.T)) == []


def test_digests_of_parts() -> None:
    """Where one ends and the next one begins counts."""
    found = {
        digest_of_parts(parts) for parts in ([b"ab", b"c"], [b"a", b"bc"], [b"abc"], [b"abc", b""])
    }
    assert len(found) == 4


def test_a_block_comes_back() -> None:
    """From what a store has of it, whatever the sizes of its columns are."""
    edges = np.arange(12, dtype=np.int32).reshape(4, 3) - 5
    ends, bans = np.array([[0, 1, 0], [1, 0, 0]]), np.array([[7, 8], [8, 7 << 40]])
    records = Records.of([b"1,0,0\n", b"22,0,0\n"]), Records.of([b"7\n", b"88\n", b"999\n"])
    block = Block(np.array([7, 8, 9]), edges, ends, np.array([1, 22]), bans, *records)
    again = Block.of_content(block.content())
    for found, wanted in zip(again[:5], block[:5]):
        assert np.array_equal(np.asarray(found), np.asarray(wanted))
    for one, other in zip(again[5:], records):
        assert bytes(one.text) == other.text and one.sizes.tolist() == other.sizes.tolist()
    assert again.content() == block.content()


def test_pieces_of_all_sizes() -> None:
    """Beside slices: around each power of two, and at both ends."""
    draw = np.random.default_rng(1)
    sizes = draw.permutation([*range(1, 70), 127, 128, 129, 1023, 1024, 5000])
    source = draw.bytes(int(sizes.sum()))
    behind = np.cumsum(sizes)
    begins = behind - sizes
    order = draw.permutation(len(sizes))
    places = np.cumsum(sizes[order]) - sizes[order]
    target = bytearray(len(source))
    copy_pieces(source, begins[order], sizes[order], target, places)
    pieces = [source[begin:end] for begin, end in zip(begins.tolist(), behind.tolist())]
    assert bytes(target) == b"".join(pieces[one] for one in order.tolist())
    with pytest.raises(IndexError):
        copy_pieces(source, np.array([len(source) - 3]), np.array([4]), target, np.array([0]))


def test_a_file_of_records_from_several_texts() -> None:
    """One that is in two texts is taken once, and one that isn't asked for isn't."""
    first = Records.of([b"5,x\n", b"7\n", b"8\n", b"9,yyy\n"])
    second = Records.of([b"1,zz\n", b"7\n"])
    file = RecordFile(("id", "it"), np.array([4, 2, 6, 5, 2]), np.array([3, 0, 1, 2]))
    file.add([first], [np.array([0, 1, 3])])
    file.add([second], [np.array([0, 1])])
    assert file.content == b"id,it\n1,zz\n5,x\n7\n9,yyy\n"
    none = np.zeros(0, dtype=np.int64)
    assert RecordFile(("id",), none, none).content == b"id\n"


def test_lines_in_one_place(tmp_path: Path) -> None:
    """They are put into blocks of 256 in the order of their ids, however their file has them."""
    rows = "".join(f"{id},1,2,3,3,111,\n" for id in range(300, 0, -1))
    header = "id,from,to,class,form,length,shape\n"
    folder = folder_of(tmp_path / "map", lines=header + rows, bans="from,to\n")
    make_store_of_folder(folder, tmp_path / "map.gpkg")
    with Store.open(tmp_path / "map.gpkg") as store:
        assert store.blocks() == 2
        assert store.lines_of_block(0).tolist() == list(range(1, 257))
        assert store.lines_of_block(1).tolist() == list(range(257, 301))


def test_numbers_on_which_regions_depend() -> None:
    """Also where one is 0; others aren't among them."""
    assert Options.of({"slack": 0, "page": 3, "radius": 7}) == Options(radius=7, slack=0)
