"""The records of which stores are made: those that aren't a map's, as the program has it, and the digest that names all of them."""

import os
import pytest
import random
from pathlib import Path

from conftest import Program
from drawn_maps import damage, draw_files
from olr.errors import ToolError
from olr.geometry.network import Network
from olr.model import columns
from olr.regions import geopackage, packing
from olr.regions.making import make_store_of_folder
from olr.regions.store import Store
from stores import BANS, LINES, NODES, all_lines, folder_of, map_with_bans, texts


@pytest.fixture
def file(tmp_path: Path) -> Path:
    """Where a store is made."""
    return tmp_path / "stores" / "some.gpkg"


def test_a_store_of_many_batches(
    tmp_path: Path, file: Path, monkeypatch: pytest.MonkeyPatch
) -> None:
    """Records are read some at a time, those with quotes one by one, and rows are written some at a time."""
    whole = map_with_bans(tmp_path / "map")
    make_store_of_folder(whole, file)
    monkeypatch.setattr(columns, "PIECE", 500)
    monkeypatch.setattr(columns, "ROWS", 7)
    monkeypatch.setattr(geopackage, "ROWS", 3)
    monkeypatch.setattr(packing, "LINES", 5)
    rows = (whole / "lines.csv").read_text().splitlines()
    rows[50:] = [",".join(f'"{field}"' for field in row.split(",")) for row in rows[50:]]
    (whole / "lines.csv").write_text("\n".join(rows))
    make_store_of_folder(whole, tmp_path / "other.gpkg")
    with Store.open(file) as store, Store.open(tmp_path / "other.gpkg") as other:
        for number, one in enumerate((store, other)):
            one.write_map(all_lines(one), tmp_path / str(number))
        assert texts(tmp_path / "0") == texts(tmp_path / "1")
        known, same = store.shortness, other.shortness
        assert (known.usual, known.greatest) == (same.usual, same.greatest)


def digest_of(folder: Path, files: dict[str, str]) -> str:
    """The digest of the store of a map with these files."""
    for name, text in files.items():
        (folder / name).write_text(text)
    make_store_of_folder(folder, folder / "made.gpkg", force=True)
    with Store.open(folder / "made.gpkg") as store:
        return store.digest


def changed(text: str, number: int, column: str) -> str:
    """A file of a map with another value in a field of a record."""
    header, *rows = text.splitlines()
    fields = rows[number].split(",")
    place = header.split(",").index(column)
    fields[place] = "5 5" if column == "shape" else str((int(fields[place]) + 1) % 8)
    return "\n".join([header, *rows[:number], ",".join(fields), *rows[number + 1 :]])


@pytest.mark.parametrize("seed", range(3))
def test_the_digest_is_that_of_the_map(seed: int, tmp_path: Path) -> None:
    """Whatever the order of its records is, and no other map has it: each field of a drawn record is changed once."""
    draw = random.Random(seed)
    files = texts(map_with_bans(tmp_path / "map"))
    mixed = {}
    for name, text in files.items():
        header, *rows = text.splitlines()
        draw.shuffle(rows)
        mixed[name] = "\r\n".join([header, *rows])
    digest = digest_of(tmp_path, files)
    assert len(digest) == 64 and set(digest) <= set("0123456789abcdef")
    assert digest_of(tmp_path, mixed) == digest
    bans = files["bans.csv"]
    others = [
        files | {"nodes.csv": files["nodes.csv"] + "999999,0,0\n"},
        files | {"bans.csv": bans.rsplit("\n", 2)[0]},
        files | {"bans.csv": "\n".join(bans.splitlines()[:-2])},
    ]
    for name, fields in [
        ("nodes.csv", ["lon", "lat"]),
        ("lines.csv", ["class", "form", "length", "shape"]),
    ]:
        for column in fields:
            number = draw.randrange(files[name].count("\n") - 1)
            others.append(files | {name: changed(files[name], number, column)})
    assert len({digest, *(digest_of(tmp_path, other) for other in others)}) == len(others) + 1


def line(**changes: object) -> str:
    """The files' second line, changed."""
    fields = {"id": 8, "from": 2, "to": 1, "class": 3, "form": 3, "length": 1113, "shape": ""}
    return LINES.rsplit("\n", 2)[0] + "\n" + ",".join(str(v) for v in (fields | changes).values())


@pytest.mark.parametrize(
    "files, words",
    [
        ({"nodes": "id,lon\n"}, "nodes.csv doesn't begin with the header"),
        ({"nodes": NODES + "3,0\n"}, "nodes.csv: record 3 has 2 fields"),
        ({"nodes": NODES + "3,0,x\n"}, "record 3 of the nodes isn't one of a map"),
        ({"nodes": NODES + "3,0,80000001\n"}, "record 3 of the nodes isn't one of a map"),
        ({"nodes": NODES + "0,0,0\n"}, "record 3 of the nodes isn't one of a map"),
        ({"nodes": NODES + "2,5,5\n"}, "two records of the nodes have one id"),
        ({"lines": line(id=7)}, "two records of the lines have one id"),
        ({"lines": line(to=3)}, "record 2 of the lines isn't one of a map"),
        ({"lines": line(length=0)}, "record 2 of the lines isn't one of a map"),
        ({"lines": line(length=10_000_001)}, "record 2 of the lines isn't one of a map"),
        ({"lines": line(length=2**70)}, "record 2 of the lines isn't one of a map"),
        ({"lines": line(**{"class": 8})}, "record 2 of the lines isn't one of a map"),
        ({"lines": line(shape="1")}, "record 2 of the lines isn't one of a map"),
        ({"lines": line(shape="1 2 3;4")}, "record 2 of the lines isn't one of a map"),
        ({"lines": line(shape="5 5;5 5")}, "record 2 of the lines isn't one of a map"),
        ({"lines": line(shape="1000 -5")}, "record 2 of the lines isn't one of a map"),
        ({"lines": line(to=2)}, "record 2 of the lines isn't one of a map"),
        ({"lines": line(shape="180000001 5")}, "record 2 of the lines isn't one of a map"),
        ({"lines": line(shape=";".join(["1 1;2 2"] * 33))}, "record 2 of the lines isn't"),
        ({"bans": "from,to\n7,9\n"}, "1 bans aren't between two lines that meet"),
        ({"bans": "from,to\n7,7\n"}, "1 bans aren't between two lines that meet"),
        ({"bans": "from,to\n7,8\n7,8\n"}, "two records of the bans have one id"),
    ],
)
def test_what_isnt_a_map(
    files: dict[str, str], words: str, tmp_path: Path, file: Path, program: Program
) -> None:
    place = folder_of(tmp_path / "map", **files)
    assert program.fault(place) != ""
    file.parent.mkdir()
    file.write_text("mine")
    with pytest.raises(ToolError, match=words):
        make_store_of_folder(place, file, force=True)
    assert os.listdir(file.parent) == [file.name] and file.read_text() == "mine"


NUMBERS = [
    "1_000",
    " 1000",
    "1000 ",
    "+1000",
    "١٠٠٠",
    "１０００",
    "1000.0",
    "1e3",
    "0x10",
    "--5",
    "",
    "9" * 17,
]


@pytest.mark.parametrize("text", NUMBERS)
def test_numbers_that_olr_refuses(text: str, tmp_path: Path, file: Path, program: Program) -> None:
    """In each column, as the program says, with the number of its record; and so for `olr.Network`. Every second one is quoted."""
    quote = '"' if NUMBERS.index(text) % 2 else ""
    field = f"{quote}{text}{quote}"
    nodes = [NODES + f"{field},0,0\n", NODES + f"3,{field},0\n", NODES + f"3,0,{field}\n"]
    names = ["id", "from", "to", "class", "form", "length"]
    lines = [line(**{name: field}) for name in names]
    lines += [line(shape=f"{quote}{text} 1;2 2{quote}"), line(shape=f"{quote}5 5;1 {text}{quote}")]
    bans = [f"from,to\n7,8\n{field},7\n", f"from,to\n7,8\n8,{field}\n"]
    cases = {"nodes": nodes, "lines": lines, "bans": bans}
    for number, (name, content) in enumerate((n, c) for n, all in cases.items() for c in all):
        place = folder_of(tmp_path / str(number), **{name: content})
        record = 3 if name == "nodes" else 2
        assert program.fault(place).startswith(f"Field {name} {record} ")
        wanted = f"record {record} of the {name} isn't one of a map: run olr-tools check"
        with pytest.raises(ToolError, match=wanted):
            make_store_of_folder(place, file)
        assert not file.exists()
        if name != "bans":
            with pytest.raises(ToolError, match=wanted):
                Network.read(place)


@pytest.mark.parametrize("seed", range(60))
def test_damaged_maps_are_refused(seed: int, tmp_path: Path, file: Path, program: Program) -> None:
    """Those that the program refuses, and no others: bytes, fields or records of a drawn map are changed."""
    draw = random.Random(seed)
    for name, text in damage(draw, draw_files(draw)).items():
        (tmp_path / name).write_bytes(text)
    try:
        make_store_of_folder(tmp_path, file)
        refused = False
    except ToolError:
        refused = True
    assert refused == (program.fault(tmp_path) != "")


def test_numbers_with_zeros_before_them(tmp_path: Path, file: Path) -> None:
    """The map is the same one."""
    same = folder_of(
        tmp_path / "zeros",
        NODES.replace("2,1000,-5", "02,0001000,-0005"),
        LINES.replace("7,1,2", "007,1,02").replace("300 1;600 2", "0300 01;600 2"),
        BANS.replace("7,8", "7,08"),
    )
    make_store_of_folder(folder_of(tmp_path / "map"), file)
    make_store_of_folder(same, tmp_path / "same.gpkg")
    with Store.open(file) as store, Store.open(tmp_path / "same.gpkg") as other:
        assert store.digest == other.digest
        other.write_map(all_lines(other), tmp_path / "again")
    assert texts(tmp_path / "again")["lines.csv"] == LINES
