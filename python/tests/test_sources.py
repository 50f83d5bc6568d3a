"""Where lines came from: `ids.csv` of folders and the sources of stores, written and read again."""

import csv
import fiona
import numpy as np
import pytest
import sqlite3
from contextlib import closing
from pathlib import Path

from conftest import Tools
from olr.errors import ToolError
from olr.geometry.network import Network
from olr.model.road_map import Line, Node, Origin, Position, RoadMap
from olr.model.sources import Sources, write_origins
from olr.regions.making import make_store_of_folder, make_store_of_map
from olr.regions.store import Store
from stores import folder_of as map_of

HARD = (
    "plain",
    "",
    " blanks ",
    'the "old" road',
    "High Street, east",
    "two\nlines",
    "carriage\rreturn",
    "both\r\nof them",
    "شارع الملك فهد",
    "\u202bright to left\u202c",
    "Straße 🛣",
    "\ufeffmark",
    "'; --",
    "=1+1",
)
"""Texts that are hard to write."""
HEADER = "line,source,direction,part,name"


def hard_origins() -> list[Origin]:
    """Lines whose sources, names and kept fields are such texts."""
    texts = list(zip(HARD, HARD[1:] + HARD[:1], HARD[2:] + HARD[:2]))
    return [
        Origin(line, source, "backward" if line % 2 else "forward", line % 5, name, (kept, source))
        for line, (source, name, kept) in enumerate(texts, 1)
    ]


def folder_of(place: Path, text: str) -> Path:
    """A folder with such an `ids.csv`."""
    place.mkdir(exist_ok=True)
    (place / "ids.csv").write_bytes(text.encode())
    return place


def test_hard_texts_come_back(tmp_path: Path) -> None:
    """Here, and by the module csv alone."""
    origins = hard_origins()
    write_origins(tmp_path / "ids.csv", origins, ["surface, or not", "ref"])
    sources = Sources.of_folder(tmp_path)
    assert sources.kept == ("surface, or not", "ref")
    assert list(sources.values()) == origins
    assert list(sources) == [origin.line for origin in origins]
    with (tmp_path / "ids.csv").open(encoding="utf-8", newline="") as stream:
        rows = list(csv.reader(stream))
    assert rows[0] == [*HEADER.split(","), "surface, or not", "ref"]
    assert rows[1:] == [[*map(str, origin[:5]), *origin.kept] for origin in origins]


def test_long_texts_are_read_whatever_limit_the_process_has(tmp_path: Path) -> None:
    """By default the module csv reads 131,072 characters of a field at most."""
    write_origins(tmp_path / "ids.csv", [Origin(1, "7", "forward", 0, "n" * 200_000)], ())
    before = csv.field_size_limit(131_072)
    try:
        assert Sources.of_folder(tmp_path)[1].name == "n" * 200_000
    finally:
        csv.field_size_limit(before)


def test_records_end_by_line_feeds(tmp_path: Path) -> None:
    write_origins(tmp_path / "ids.csv", [Origin(1, "a\rb", "forward", 0)], [])
    assert (tmp_path / "ids.csv").read_bytes() == f'{HEADER}\n1,"a\rb",forward,0,\n'.encode()


def test_a_line_is_looked_up(tmp_path: Path) -> None:
    sources = Sources.of_folder(folder_of(tmp_path, f"{HEADER},surface\n7,S,forward,3,N,asphalt\n"))
    assert sources[7] == Origin(7, "S", "forward", 3, "N", ("asphalt",))
    assert sources.get(8) is None and 8 not in sources and len(sources) == 1


def test_a_folder_without_the_file_has_none(tmp_path: Path) -> None:
    sources = Sources.of_folder(tmp_path)
    assert len(sources) == 0 and sources.kept == () and sources.get(7) is None


@pytest.mark.parametrize(
    "text, kept, origin",
    [
        ("line,source,direction,part\n7,S,forward,0\n", (), Origin(7, "S", "forward", 0)),
        (
            "line,source,direction,part,lanes\r\n7,S,forward,0,2\r\n",
            ("lanes",),
            Origin(7, "S", "forward", 0, "", ("2",)),
        ),
        (f"\ufeff{HEADER}\n\n7,S,forward,0,N\n\n", (), Origin(7, "S", "forward", 0, "N")),
        (f"{HEADER}\n7,S,forward,0,N", (), Origin(7, "S", "forward", 0, "N")),
    ],
)
def test_files_of_others(tmp_path: Path, text: str, kept: tuple[str, ...], origin: Origin) -> None:
    """Without the column of names, with other ends of records, with a byte order mark."""
    sources = Sources.of_folder(folder_of(tmp_path, text))
    assert sources.kept == kept and dict(sources) == {7: origin}


@pytest.mark.parametrize(
    "text, words",
    [
        ("", "doesn't begin with the header line,source,direction,part"),
        ("of another program\n", "doesn't begin with the header line,source,direction,part"),
        (f"{HEADER},Ref,REF\n", 'column "REF": it is there twice'),
        (f"{HEADER},Source\n", 'column "Source": ids.csv has a column source of its own'),
        (f"{HEADER},\n", 'column "": a field needs a name'),
        (f"{HEADER}\n7,S,forward,0,N\n8,S,forward,0\n", "record 2 has 4 fields, not 5"),
        (f"{HEADER}\n7,S,forward,0,N\n8,S,for", "record 2 has 3 fields, not 5"),
        (f"{HEADER}\n7,S,forward,0,N,\n", "record 1 has 6 fields, not 5"),
        (f"{HEADER}\n0,S,forward,0,N\n", "record 1 isn't understood"),
        (f"{HEADER}\n1_0,S,forward,0,N\n", "record 1 isn't understood"),
        (f"{HEADER}\n7,S,both,0,N\n", "record 1 isn't understood"),
        (f"{HEADER}\n7,S,forward,-1,N\n", "record 1 isn't understood"),
        (f"{HEADER}\n7,S,forward,0,N\n7,T,forward,0,N\n", "record 2 repeats line 7"),
        (f'{HEADER}\n7,S,forward,0,N\n8,S,forward,0,"N\n', "record 2 isn't CSV"),
        (f'{HEADER}\n7,"S"t,forward,0,N\n', "record 1 isn't CSV"),
    ],
)
def test_a_damaged_file_is_one_error(tmp_path: Path, text: str, words: str) -> None:
    with pytest.raises(ToolError) as raised:
        Sources.of_folder(folder_of(tmp_path, text))
    message = str(raised.value)
    assert message.startswith(f"{tmp_path}/ids.csv") and words in message and "\n" not in message


def test_other_bytes_than_utf_8_are_named_by_their_record(tmp_path: Path) -> None:
    text = HEADER.encode() + b"\n" + b"".join(b"%d,S,forward,0,N\n" % n for n in range(1, 2001))
    (tmp_path / "ids.csv").write_bytes(text + b"2001,Stra\xdfe,forward,0,N\n")
    with pytest.raises(ToolError, match=r"ids\.csv: record 2001 isn't UTF-8$"):
        Sources.of_folder(tmp_path)
    (tmp_path / "ids.csv").write_bytes(b"line,source,direction,part,na\xefme\n")
    with pytest.raises(ToolError, match=r"ids\.csv: the header isn't UTF-8$"):
        Sources.of_folder(tmp_path)


def test_a_folder_in_the_place_of_the_file(tmp_path: Path) -> None:
    (tmp_path / "ids.csv").mkdir()
    with pytest.raises(ToolError, match=r"ids\.csv can't be read: Is a directory"):
        Sources.of_folder(tmp_path)


def test_a_store_has_the_sources_of_its_folder(tmp_path: Path) -> None:
    """All of them, also of lines that aren't on the map; and other programs see them as a table."""
    folder, file = map_of(tmp_path / "map"), tmp_path / "map.gpkg"
    origins, kept = hard_origins(), ['the "kept" field', "fid, or; DROP TABLE lines"]
    write_origins(folder / "ids.csv", origins, kept)
    make_store_of_folder(folder, file)
    of_folder = Sources.of_folder(folder)
    with Store.open(file) as store:
        of_store = Sources.of_store(store)
        assert dict(of_store) == dict(of_folder) == {origin.line: origin for origin in origins}
        assert of_store.kept == of_folder.kept == tuple(kept)
        assert len(of_store) == len(origins) and 7 in of_store
        assert of_store.get(np.int64(7)) == of_folder[7]  # type: ignore[call-overload]
        assert [of_store.get(line) for line in (0, -7, 99, 2**53, 2**70)] == [None] * 5
    assert sorted(fiona.listlayers(file)) == ["lines", "nodes", "sources"]
    with fiona.open(file, layer="sources") as layer:
        rows = [dict(feature["properties"]) for feature in layer]
    assert [(row["source"], row["name"]) for row in rows] == [
        (origin.source, origin.name) for origin in origins
    ]


def test_sources_are_no_part_of_the_map(tmp_path: Path) -> None:
    """A store has the same digest with them and without them; without them it has none."""
    folder = map_of(tmp_path / "map")
    make_store_of_folder(folder, tmp_path / "without.gpkg")
    write_origins(folder / "ids.csv", [Origin(7, "S", "forward", 0)], [])
    make_store_of_folder(folder, tmp_path / "with.gpkg")
    with Store.open(tmp_path / "without.gpkg") as without, Store.open(tmp_path / "with.gpkg") as it:
        assert without.digest == it.digest
        assert len(Sources.of_store(without)) == 0 and Sources.of_store(without).get(7) is None
        assert Sources.of_store(it)[7] == Origin(7, "S", "forward", 0)


def test_a_store_of_a_map_in_memory_has_its_sources(tmp_path: Path) -> None:
    origin = Origin(7, "S", "forward", 0, "N", ("asphalt",))
    nodes = [Node(1, Position(0, 0)), Node(2, Position(1000, 0))]
    road_map = RoadMap(nodes, [Line(7, 1, 2, 3, 3, 1113, ())], (), [origin], ["surface"])
    make_store_of_map(road_map, tmp_path / "map.gpkg")
    with Store.open(tmp_path / "map.gpkg") as store:
        sources = Sources.of_store(store)
        assert sources.kept == ("surface",) and dict(sources) == {7: origin}


@pytest.mark.parametrize(
    "text, words",
    [
        (f"{HEADER}\n7,S,forward,0\n", "ids.csv: record 1 has 4 fields, not 5"),
        (f"{HEADER}\n7,S,forward,0,N\n7,T,forward,1,N\n", "two records of ids.csv have one line"),
    ],
)
def test_a_store_of_a_damaged_file_is_none(tmp_path: Path, text: str, words: str) -> None:
    folder, file = map_of(tmp_path / "map"), tmp_path / "map.gpkg"
    folder_of(folder, text)
    with pytest.raises(ToolError, match=words):
        make_store_of_folder(folder, file)
    assert not file.exists()


@pytest.mark.parametrize(
    "damage",
    [
        "UPDATE sources SET direction = 'both'",
        "UPDATE sources SET part = 'first'",
        "UPDATE sources SET source = x'00'",
        "ALTER TABLE sources RENAME COLUMN name TO title",
    ],
)
def test_a_damaged_table_is_one_error(tmp_path: Path, damage: str) -> None:
    folder, file = map_of(tmp_path / "map"), tmp_path / "map.gpkg"
    write_origins(folder / "ids.csv", [Origin(7, "S", "forward", 0)], [])
    make_store_of_folder(folder, file)
    with closing(sqlite3.connect(file)) as connection:
        connection.execute(damage)
        connection.commit()
    with Store.open(file) as store, pytest.raises(ToolError, match="its table of sources isn't"):
        Sources.of_store(store).get(7)


def test_a_network_of_a_store_that_is_made_again_has_its_sources(tmp_path: Path) -> None:
    """The file of the same map takes its place."""
    folder, file = map_of(tmp_path / "map"), tmp_path / "map.gpkg"
    write_origins(folder / "ids.csv", [Origin(7, "S", "forward", 0)], [])
    make_store_of_folder(folder, file)
    network = Network.read(file)
    assert network.sources()[7].source == "S"
    write_origins(folder / "ids.csv", [Origin(7, "T", "forward", 0)], [])
    make_store_of_folder(folder, file, force=True)
    assert len(network.path([(7, 0, 1)])) == 2
    assert network.sources()[7].source == "T"


@pytest.mark.parametrize(
    "text", ["line,way\n11,7\n", f"{HEADER}\n11,S\n", f"{HEADER}\n11,S,F,0,N\n"]
)
def test_a_file_of_another_content_can_be_renamed(tools: Tools, tmp_path: Path, text: str) -> None:
    """No store is made before, and one without sources then."""
    folder, store = map_of(tmp_path / "map"), tmp_path / "store.gpkg"
    (folder / "ids.csv").write_text(text)
    ended = tools.run("regions", folder, "--out", store)
    assert ended.returncode == 1 and ended.stderr.count("\n") == 1 and not store.exists()
    assert "rename it, such as to other-ids.csv: a map needs none" in ended.stderr
    (folder / "ids.csv").rename(folder / "other-ids.csv")
    assert tools.run("regions", folder, "--out", store).returncode == 0
    with Store.open(store) as opened:
        assert not Sources.of_store(opened)
