"""What imports keep of a file for each line: names, and the fields of `--keep`."""

import fiona
import pytest
from collections.abc import Sequence
from pathlib import Path
from typing import Any

from conftest import TOP, Program
from drawing import Drawing
from olr.model.road_map import Origin
from olr.model.sources import COLUMNS, Sources
from olr.regions.store import Store
from olr.tools import run
from vector_files import DRIVERS, STREETS, about, assert_refused

NAMES = {
    1: 'the "old" road',
    2: "High Street, east",
    3: "two\nlines",
    4: "carriage\rreturn",
    5: "שדרות רוטשילד",
    6: "",
    7: " blanks ",
}
"""Names of ways. The last way has none."""
LAST = 8


def streets(file: Path) -> Path:
    """A row of ways with these names. Two of them have a surface."""
    drawing = Drawing({node: (1000 * node, 0) for node in range(1, LAST + 2)})
    for way, name in NAMES.items():
        surface = {"surface": "paving_stones:30" if way == 1 else "asphalt"} if way < 3 else {}
        drawing.way(way, [way, way + 1], name=name.replace("\r", "&#13;"), ref=f"B{way}", **surface)
    drawing.way(LAST, [LAST, LAST + 1])
    file = drawing.write(file)
    # The references to characters that were written as texts are references again, and ends of lines aren't read as blanks.
    text = (
        file.read_text(encoding="utf-8")
        .replace("&amp;#13;", "&#13;")
        .replace("\nlines", "&#10;lines")
    )
    file.write_text(text, encoding="utf-8")
    return file


def layer(file: Path, fields: dict[str, str], values: Sequence[dict[str, Any]]) -> Path:
    """A row of roads with such fields, in a file whose name says its format."""
    driver = DRIVERS[file.suffix]
    schema = {"geometry": "LineString", "properties": fields}
    roads = [
        {
            "geometry": {"type": "LineString", "coordinates": [(n / 1e3, 0), ((n + 1) / 1e3, 0)]},
            "properties": properties,
        }
        for n, properties in enumerate(values)
    ]
    with fiona.open(str(file), "w", driver=driver, schema=schema, crs="EPSG:4326") as sink:
        sink.writerecords(roads)
    return file


def imported(kind: str, file: Path, out: Path, *words: str) -> Sources:
    """The sources of a map that is imported."""
    usual = ["--class", "3", "--form", "3"] if kind == "vector" else []
    assert run(["import", kind, str(file), *usual, *words, "--out", str(out)]) == 0
    return Sources.of_folder(out)


def first_line(out: Path) -> str:
    """The header of a map's `ids.csv`."""
    return (out / "ids.csv").read_text(encoding="utf-8").splitlines()[0]


def test_names_of_ways(tmp_path: Path, program: Program) -> None:
    """As they are in the file; none is an empty text; both directions have the name."""
    sources = imported("osm", streets(tmp_path / "streets.osm"), tmp_path / "map")
    assert first_line(tmp_path / "map") == "line,source,direction,part,name" == ",".join(COLUMNS)
    wanted = [
        Origin(way * 10_000 + back, str(way), "backward" if back else "forward", 0, name)
        for way, name in (NAMES | {LAST: ""}).items()
        for back in (0, 1)
    ]
    assert list(sources.values()) == wanted
    assert program.fault(tmp_path / "map") == ""


def test_tags_that_are_kept(tmp_path: Path, capsys: pytest.CaptureFixture[str]) -> None:
    """In the order of the options. Of each it is said how many ways have it."""
    words = ["--keep", "surface", "--keep", "ref", "--keep", "maxspeed"]
    sources = imported("osm", streets(tmp_path / "streets.osm"), tmp_path / "map", *words)
    assert first_line(tmp_path / "map") == "line,source,direction,part,name,surface,ref,maxspeed"
    assert sources.kept == ("surface", "ref", "maxspeed")
    assert sources[10_000].kept == ("paving_stones:30", "B1", "")
    assert sources[20_001].kept == ("asphalt", "B2", "")
    assert sources[80_000].kept == ("", "", "")
    assert capsys.readouterr().err.splitlines() == [
        "kept: roads with surface: 2",
        "kept: roads with ref: 7",
        "kept: roads with maxspeed: 0",
    ]
    assert about(tmp_path / "map")["kept"] == {"maxspeed": 0, "ref": 7, "surface": 2}


FIELDS = {
    "whole": "int",
    "large": "int64",
    "real": "float",
    "text": "str",
    "date": "date",
    "moment": "datetime",
    "truth": "bool",
}
ROWS: list[dict[str, Any]] = [
    {
        "whole": -5,
        "large": 2**53 + 1,
        "real": 2.5,
        "text": ' "a",\n b ',
        "date": "2020-02-29",
        "moment": "2020-02-29T12:00:01+02:00",
        "truth": True,
    },
    dict.fromkeys(FIELDS),
    {
        "whole": 0,
        "large": 0,
        "real": 1e300,
        "text": "",
        "date": "0999-01-01",
        "moment": "1970-01-01T00:00:00+00:00",
        "truth": False,
    },
    {**dict.fromkeys(FIELDS), "real": 7.0},
    {**dict.fromkeys(FIELDS), "real": 0.1},
]


@pytest.mark.parametrize("suffix", [".gpkg", ".geojson"])
def test_values_of_each_kind(suffix: str, tmp_path: Path) -> None:
    """Numbers in the fewest digits that say which they are; no value is an empty text."""
    file = layer(tmp_path / f"roads{suffix}", FIELDS, ROWS)
    words = [word for name in FIELDS for word in ("--keep", name)]
    sources = imported("vector", file, tmp_path / "map", *words)
    assert sources.kept == tuple(FIELDS)
    kept = [sources[line].kept for line in range(10_000, 60_000, 10_000)]
    moments = kept[0][5], kept[2][5]
    assert [row[:5] + row[6:] for row in kept] == [
        ("-5", "9007199254740993", "2.5", ' "a",\n b ', "2020-02-29", "true"),
        ("", "", "", "", "", ""),
        ("0", "0", "1e+300", "", "0999-01-01", "false"),
        ("", "", "7", "", "", ""),
        ("", "", "0.1", "", "", ""),
    ]
    assert moments == ("2020-02-29T12:00:01+02:00", "1970-01-01T00:00:00+00:00")


def test_lists_and_bytes(tmp_path: Path) -> None:
    geometry = '{"type": "LineString", "coordinates": [[0, 0], [0.001, 0]]}'
    properties = '{"lanes": ["left", "über"], "limit": {"day": 50}}'
    feature = f'{{"type": "Feature", "properties": {properties}, "geometry": {geometry}}}'
    file = tmp_path / "roads.geojson"
    file.write_text(f'{{"type": "FeatureCollection", "features": [{feature}]}}', encoding="utf-8")
    sources = imported("vector", file, tmp_path / "map", "--keep", "lanes", "--keep", "limit")
    assert sources[10_000].kept == ('["left", "über"]', '{"day": 50}')
    file = layer(tmp_path / "roads.gpkg", {"mark": "bytes"}, [{"mark": b"\x00\xff"}])
    assert imported("vector", file, tmp_path / "marks", "--keep", "mark")[10_000].kept == ("00ff",)


def test_the_field_of_names(tmp_path: Path) -> None:
    """The one of `--name`, else the one that is called so, in whatever capitals."""
    file = layer(
        tmp_path / "roads.shp", {"NAME": "str", "LABEL": "str"}, [{"NAME": "N", "LABEL": "L"}]
    )
    assert imported("vector", file, tmp_path / "by_itself")[10_000].name == "N"
    assert about(tmp_path / "by_itself")["fields"]["name"] == "NAME"
    words = ["--name", "LABEL", "--keep", "LABEL"]
    sources = imported("vector", file, tmp_path / "named", *words)
    assert (sources[10_000].name, sources[10_000].kept) == ("L", ("L",))
    assert about(tmp_path / "named")["fields"]["name"] == "LABEL"
    file = layer(tmp_path / "others.gpkg", {"LABEL": "str"}, [{"LABEL": "L"}])
    assert imported("vector", file, tmp_path / "none")[10_000].name == ""
    assert about(tmp_path / "none")["fields"]["name"] is None


@pytest.mark.parametrize(
    ("words", "error"),
    [
        (["--keep", "surface"], "has no field surface: its fields are ID, Length"),
        (["--keep", "length"], "has no field length: its fields are ID, Length"),
        (["--keep", "3"], "has no field 3: its fields are ID, Length"),
        (["--name", "surface"], "has no field surface: its fields are ID, Length"),
        (["--keep", "Length", "--keep", "Length"], '--keep "Length": it is there twice'),
        (["--keep", "Length", "--keep", "LENGTH"], '--keep "LENGTH": it is there twice'),
        (["--keep", "Source"], '--keep "Source": ids.csv has a column source of its own'),
        (["--keep", "name"], '--keep "name": ids.csv has a column name of its own'),
        (["--keep", ""], '--keep "": a field needs a name'),
    ],
)
def test_fields_that_cant_be_kept(
    words: list[str], error: str, tmp_path: Path, capfd: pytest.CaptureFixture[str]
) -> None:
    assert_refused(STREETS, words, error, tmp_path, capfd)


def test_tags_that_cant_be_kept(tmp_path: Path, capsys: pytest.CaptureFixture[str]) -> None:
    words = ["import", "osm", str(TOP / "examples/town.osm"), "--out", str(tmp_path / "map")]
    assert run([*words, "--keep", "part"]) == 1
    error = '--keep "part": ids.csv has a column part of its own'
    assert capsys.readouterr().err == f"olr-tools: {error}\n"
    assert not list(tmp_path.iterdir())


def test_streets_of_tempe_keep_a_field(tmp_path: Path) -> None:
    """Each line has the value of its own street, and the store of the map has the same as its folder."""
    words = ["--id", "ID", "--keep", "Length"]
    sources = imported("vector", STREETS, tmp_path / "map", *words)
    with fiona.open(str(STREETS)) as layer:
        feet = {str(int(row["ID"])): row["Length"] for row in (f["properties"] for f in layer)}
    assert len(sources) == 2 * len(feet) == 586
    assert all(float(o.kept[0]) == feet[o.source] for o in sources.values())
    assert sources[10_000].kept == ("244.11622945",)
    assert run(["regions", str(tmp_path / "map"), "--out", str(tmp_path / "map.gpkg")]) == 0
    with Store.open(tmp_path / "map.gpkg") as store:
        assert dict(Sources.of_store(store)) == dict(sources)
        assert Sources.of_store(store).kept == sources.kept == ("Length",)


@pytest.mark.parametrize("kind", ["osm", "vector"])
def test_an_import_beyond_the_limits_keeps_them(
    kind: str, tmp_path: Path, monkeypatch: pytest.MonkeyPatch
) -> None:
    """In its store, and in `ids.csv` beside it."""
    file = streets(tmp_path / "streets.osm") if kind == "osm" else STREETS
    words = ["--keep", {"osm": "surface", "vector": "Length"}[kind]]
    small = imported(kind, file, tmp_path / "small", *words)
    monkeypatch.setattr("olr.model.road_map.MOST_LINES", 1)
    large = imported(kind, file, tmp_path / "large", *words)
    assert (tmp_path / "large/map.gpkg").exists()
    with Store.open(tmp_path / "large") as store:
        assert dict(Sources.of_store(store)) == dict(large) == dict(small)
        assert Sources.of_store(store).kept == small.kept == (words[1],)


def test_check_compares_lines_and_sources(
    tmp_path: Path, capsys: pytest.CaptureFixture[str]
) -> None:
    """Each way round; a file that can't be read is said to be so, and is no fault; without the file nothing is said."""

    def said() -> list[str]:
        capsys.readouterr()
        assert run(["check", str(tmp_path / "map"), "--most", "2"]) == 0
        return [line for line in capsys.readouterr().out.splitlines() if "ids.csv" in line]

    imported("osm", streets(tmp_path / "streets.osm"), tmp_path / "map")
    file = tmp_path / "map/ids.csv"
    assert said() == [
        "lines without a record in ids.csv 0",
        "records of ids.csv without a line 0",
    ]
    text = file.read_text(encoding="utf-8")
    for line in (10_001, 50_000, 80_000):
        text = text.replace(f"\n{line},", f"\n{line + 90_000},")
    file.write_text(text, encoding="utf-8")
    assert said() == [
        "lines without a record in ids.csv 3: 10001, 50000, ..",
        "records of ids.csv without a line 3: 100001, 140000, ..",
    ]
    file.write_text(text + "7\n", encoding="utf-8")
    (unusable,) = said()
    assert unusable.startswith(f"ids.csv can't be used: {file}: record 17 has 1 fields, not 5: ")
    file.unlink()
    assert said() == []


@pytest.mark.parametrize("most_lines", [200_000, 1])
def test_check_compares_lines_and_sources_of_a_store(
    most_lines: int,
    tmp_path: Path,
    capsys: pytest.CaptureFixture[str],
    monkeypatch: pytest.MonkeyPatch,
) -> None:
    """Also of one that is beyond the limits; of a store without sources nothing is said."""

    def said(place: Path) -> list[str]:
        assert run(["regions", str(place), "--out", str(tmp_path / "map.gpkg"), "--force"]) == 0
        capsys.readouterr()
        assert run(["check", str(tmp_path / "map.gpkg")]) == 0
        return [line for line in capsys.readouterr().out.splitlines() if "sources" in line]

    place = tmp_path / "map"
    imported("osm", streets(tmp_path / "streets.osm"), place)
    monkeypatch.setattr("olr.model.road_map.MOST_LINES", most_lines)
    file = place / "ids.csv"
    file.write_text(file.read_text(encoding="utf-8").replace("\n80001,", "\n170001,"))
    assert [line for line in said(place) if "record" in line] == [
        "lines without a record in sources 1: 80001",
        "records of sources without a line 1: 170001",
    ]
    file.unlink()
    assert [line for line in said(place) if "record" in line] == []


def test_a_store_of_an_openstreetmap_file_has_names(tmp_path: Path) -> None:
    file = streets(tmp_path / "streets.osm")
    assert run(["regions", str(file), "--out", str(tmp_path / "map.gpkg")]) == 0
    sources = imported("osm", file, tmp_path / "map")
    with Store.open(tmp_path / "map.gpkg") as store:
        assert dict(Sources.of_store(store)) == dict(sources)
