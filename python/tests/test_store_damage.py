"""Stores that are damaged, or of another version, and disks that are full: what is wrong is noticed and said."""

import numpy as np
import os
import pytest
import random
import shlex
import sqlite3
import subprocess
from collections.abc import Iterator
from contextlib import contextmanager
from pathlib import Path

from asking import draw_map
from conftest import TOP, Tools
from olr.errors import ToolError
from olr.regions.blocks import Block
from olr.regions.making import make_store_of_folder
from olr.regions.store import Store
from stores import all_lines, folder_of, map_with_bans, texts


@pytest.fixture
def file(tmp_path: Path) -> Path:
    """Where a store is made."""
    return tmp_path / "stores" / "some.gpkg"


def test_what_isnt_a_store(tmp_path: Path, file: Path) -> None:
    with pytest.raises(ToolError, match="there is no store"):
        Store.open(file)
    file.parent.mkdir()
    for content in (b"", b"text", b"SQLite format 3\x00" + b"x" * 5000):
        file.write_bytes(content)
        with pytest.raises(ToolError, match="isn't a store of olr-tools regions"):
            Store.open(file)
    file.unlink()
    sqlite3.connect(file).execute("CREATE TABLE olr_store (version INTEGER)").close()
    with pytest.raises(ToolError, match="isn't a store"):
        Store.open(file)
    make_store_of_folder(folder_of(tmp_path / "map"), file, force=True)
    with sqlite3.connect(file) as changed:
        changed.execute("UPDATE olr_store SET version = 0")
    changed.close()
    with pytest.raises(
        ToolError, match="store of version 0, not 3: make it again by olr-tools regions"
    ):
        Store.open(file)


def flip(file: Path, place: int, bit: int = 0) -> None:
    """Changes a bit of a byte of a file."""
    data = bytearray(file.read_bytes())
    data[place] ^= 1 << bit
    file.write_bytes(data)


@pytest.mark.parametrize("what", ["line", "node", "ban", "box", "end"])
def test_a_damaged_row_is_noticed(what: str, tmp_path: Path, file: Path) -> None:
    """When its block is read, and so is a row in place of another one. What other programs read isn't looked at."""
    whole = map_with_bans(tmp_path / "map")
    make_store_of_folder(whole, file)
    rows = {name: text.splitlines() for name, text in texts(whole).items()}
    ban = np.array([int(row.split(",")[0]) for row in rows["bans.csv"][1:]], dtype="<i8")
    with sqlite3.connect(file) as reading:
        query = "SELECT content FROM olr_contents WHERE block = 1"
        block = Block.of_content(*reading.execute(query).fetchone())
    reading.close()
    needles = {
        "line": rows["lines.csv"][7].encode(),
        "node": rows["nodes.csv"][7].encode() + b"\n",
        "ban": np.sort(ban)[:3].tobytes(),
        "box": block.boxes.tobytes()[:64],
        "end": block.ends.tobytes()[:64],
    }
    data = file.read_bytes()
    assert data.count(needles[what]) >= 1
    flip(file, data.index(needles[what]) + 1)
    with Store.open(file) as store:
        with pytest.raises(ToolError, match="damaged, block . isn't what was written: make it"):
            all_lines(store)


def test_swapped_blocks_are_noticed(tmp_path: Path, file: Path) -> None:
    """Each has its digest, and so has their order."""
    make_store_of_folder(map_with_bans(tmp_path / "map"), file)
    for table in ("olr_contents", "olr_blocks"):
        damaged = tmp_path / "damaged.gpkg"
        damaged.write_bytes(file.read_bytes())
        with sqlite3.connect(damaged) as changing:
            for old, new in ((0, 7), (1, 0), (7, 1)):
                changing.execute(f"UPDATE {table} SET block = ? WHERE block = ?", (new, old))
        changing.close()
        with pytest.raises(ToolError, match="is damaged"):
            with Store.open(damaged) as store:
                all_lines(store)


def change(file: Path, statement: str) -> None:
    """Changes a store by a statement of SQL, which has to change just one row."""
    with sqlite3.connect(file) as changing:
        assert changing.execute(statement).rowcount == 1
    changing.close()


FIRST = "line = (SELECT min(line) FROM olr_shorter)"
"""Which of the lines that are far shorter than their shapes."""


@pytest.mark.parametrize(
    "statement",
    [
        "UPDATE olr_store SET usual = usual + 1e-9",
        "UPDATE olr_store SET usual = 2",
        "UPDATE olr_store SET greatest = greatest - 1e-9",
        "UPDATE olr_store SET greatest = usual",
        "UPDATE olr_store SET lines = lines - 1",
        "UPDATE olr_store SET nodes_digest = zeroblob(32)",
        "UPDATE olr_store SET digest = replace(digest, substr(digest, 1, 1), 'g')",
        f"UPDATE olr_shorter SET excess = excess / 2 WHERE {FIRST}",
        f"UPDATE olr_shorter SET lon = lon + 1 WHERE {FIRST}",
        f"UPDATE olr_shorter SET west = west + 1 WHERE {FIRST}",
        f"UPDATE olr_shorter SET line = 1000000 WHERE {FIRST}",
        f"DELETE FROM olr_shorter WHERE {FIRST}",
        "INSERT INTO olr_shorter VALUES (1000000, 0, 0, 0, 0, 0, 0, 1)",
    ],
)
def test_facts_that_were_changed(statement: str, tmp_path: Path, file: Path) -> None:
    """How much shorter lines are than their shapes decides how large regions are: a store with another number isn't opened."""
    whole = map_with_bans(tmp_path / "map")
    header, *rows = (whole / "lines.csv").read_text().splitlines()
    for number in (3, 30, 300):
        words = rows[number].split(",")
        words[5] = "1"
        rows[number] = ",".join(words)
    (whole / "lines.csv").write_text("\n".join([header, *rows]) + "\n")
    make_store_of_folder(whole, file)
    with Store.open(file) as store:
        known = store.shortness
        assert len(known.lines) == 3 and known.usual < known.greatest
    change(file, statement)
    with pytest.raises(ToolError, match="damaged, its table of facts isn't what was written"):
        Store.open(file)


@pytest.mark.parametrize(
    ("statement", "said"),
    [
        ("UPDATE olr_places SET block = 1 - block", "damaged, .* isn't what was written: make it"),
        ("UPDATE olr_places SET block = 99", "damaged, .* isn't what was written: make it"),
        ("UPDATE olr_places SET block = 'x'", "damaged, .* isn't what was written: make it"),
        ("DELETE FROM olr_places", "hasn't 1 of 400 lines"),
    ],
)
def test_the_place_of_a_line_is_damaged(
    statement: str, said: str, tmp_path: Path, file: Path
) -> None:
    """It is noticed where lines are asked for by their ids. By places on the map they are found without it."""
    make_store_of_folder(map_with_bans(tmp_path / "map"), file)
    with Store.open(file) as store:
        lines = all_lines(store)
    change(file, f"{statement} WHERE line = {lines[7]}")
    with Store.open(file) as store:
        with pytest.raises(ToolError, match=said):
            store.sizes_of(lines)
    with Store.open(file) as store:
        assert np.array_equal(all_lines(store), lines)
        assert store.sizes_of(lines).lines == 400


@pytest.mark.parametrize("seed", range(4))
def test_damaged_stores(seed: int, tmp_path: Path, file: Path) -> None:
    """A bit of a drawn byte is another one: the map is the same one, or an error says that something is wrong."""
    draw = random.Random(seed)
    make_store_of_folder(map_with_bans(tmp_path / "map"), file)
    damaged, place = tmp_path / "damaged.gpkg", tmp_path / "again"
    with Store.open(file) as store:
        lines = all_lines(store)
        store.write_map(lines, place)
    wanted = texts(place)
    noticed = 0
    for number in range(60):
        damaged.write_bytes(file.read_bytes())
        flip(damaged, draw.randrange(file.stat().st_size), draw.randrange(8))
        try:
            with Store.open(damaged) as store:
                store.write_map(lines if number % 2 else all_lines(store), place)
            assert texts(place) == wanted
        except ToolError as error:
            assert str(damaged) in str(error)
            noticed += 1
    assert noticed > 6


def test_a_folder_that_cant_be_written(tmp_path: Path, file: Path) -> None:
    make_store_of_folder(folder_of(tmp_path / "map"), file)
    (tmp_path / "taken").touch()
    with Store.open(file) as store:
        with pytest.raises(ToolError, match="taken can't be written"):
            store.write_map(all_lines(store), tmp_path / "taken")
    with pytest.raises(ToolError, match="can't be written"):
        make_store_of_folder(tmp_path / "map", tmp_path / "taken" / "store.gpkg")


def test_a_full_disk(tmp_path: Path, file: Path) -> None:
    """Here files can't grow beyond 100 kB."""
    whole = draw_map(tmp_path / "map", 300, 600)
    words = [str(TOP / "olr-tools"), "regions", str(whole), "--out", str(file)]
    command = ["bash", "-c", f"ulimit -f 100; exec {shlex.join(words)}"]
    ended = subprocess.run(command, capture_output=True, text=True, check=False, timeout=600)
    assert ended.returncode == 1
    assert ended.stderr.startswith(f"olr-tools: {file} can't be written: ")
    assert ended.stderr.count("\n") == 1
    assert not file.parent.exists()


@contextmanager
def small_disk(place: Path, kilobytes: int) -> Iterator[Path]:
    """A folder on a disk of its own, of so many kB. The test is skipped where there can't be one."""
    place.mkdir()
    words = ["mount", "-t", "tmpfs", "-o", f"size={kilobytes}k", "olr-test", str(place)]
    try:
        mounted = subprocess.run(words, capture_output=True, check=False).returncode == 0
    except OSError:
        mounted = False
    if not mounted:
        pytest.skip("only root may mount a small disk")
    try:
        yield place
    finally:
        subprocess.run(["umount", place], check=True)


@pytest.mark.parametrize("kilobytes", [40, 80, 140, 200, 260, 300])
def test_a_disk_that_fills_up(kilobytes: int, tools: Tools, tmp_path: Path) -> None:
    """At its beginning, in the middle, or near its end: there is one message, what was there stays, and nothing is beside it."""
    whole = map_with_bans(tmp_path / "map")
    with small_disk(tmp_path / "disk", kilobytes) as disk:
        old, new = disk / "old.gpkg", disk / "new" / "store.gpkg"
        old.write_text("mine")
        for file in (old, new):
            words = ["regions", whole, "--out", file]
            words += ["--force"] if file == old else []
            ended = tools.run(*words)
            said = f"olr-tools: {file} can't be written: No space left on device\n"
            assert (ended.returncode, ended.stderr) == (1, said)
            assert os.listdir(disk) == [old.name] and old.read_text() == "mine"
