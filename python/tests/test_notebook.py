"""What a notebook has: tables of references by `olr.locate`, lines of a map, and pages by `olr.view`."""

import csv
import geopandas
import html
import os
import pandas
import pytest
import re
from collections.abc import Iterator
from dataclasses import replace
from pathlib import Path
from shapely.geometry import LineString
from typing import Any
from xml.etree import ElementTree

import olr
from conftest import OF_PROGRAM, TOP, Program
from olr.client.given_map import opened
from olr.confidence.weights import ORDER
from olr.matching.columns import ANSWERS
from olr.matching.kept_columns import kept_columns
from olr.model.answers import about
from olr.regions.making import make_store_of_folder
from olr.tools import run

EXAMPLES = TOP / "examples"
SLOW, BREAKDOWN, ROADWORKS = (
    "CwVF/yN2yRpnBAFUAAgbpwYBAf9kK0Fa",
    "CwVF+yN2yhpnBAFdAAsaFg==",
    "CwVGnSN2zhvHCgDX/tIzAw==",
)
UNMATCHED, REFUSED, KIOSK = (
    "CwVGnSN2zhtnBgEB/2IjAQ==",
    "CwVGnSN2zhvHCgDX",
    "KwVGnCN20HPDBwFCATFjT5Y=",
)


@pytest.fixture(autouse=True)
def environment(program: Program, monkeypatch: pytest.MonkeyPatch) -> None:
    """Paths of maps are asked with the program of the tests."""
    monkeypatch.setenv("OLR_PROGRAM", os.fspath(program.path))


@pytest.fixture
def town() -> Iterator[olr.Map]:
    """The map of the examples, with the usual tolerances."""
    with olr.Map(EXAMPLES) as asked:
        yield asked


@pytest.fixture
def plain_town() -> Iterator[olr.Map]:
    """That map without its bans, with the program's own tolerances."""
    nodes, lines = EXAMPLES / "nodes.csv", EXAMPLES / "lines.csv"
    with olr.Map(nodes, lines, profile="program") as asked:
        yield asked


@pytest.fixture
def own_folder(tmp_path: Path) -> Path:
    """That map with a node more: nobody else has read its network."""
    folder = tmp_path / "own"
    folder.mkdir()
    for name in ("nodes.csv", "lines.csv"):
        (folder / name).write_text((EXAMPLES / name).read_text())
    with (folder / "nodes.csv").open("a") as stream:
        stream.write("999,7400000,49800000\n")
    return folder


# ---- a table of references


def table_of(*cells: object, **columns: object) -> pandas.DataFrame:
    """A table with a column of references."""
    return pandas.DataFrame({"ref": pandas.Series(cells, dtype=object), **columns})


def test_each_row_stays_with_its_index_and_columns(town: olr.Map) -> None:
    """Its own columns come first, in the order of the rows; the table that was given stays as it is."""
    index = pandas.MultiIndex.from_tuples([("b", 1), ("a", 2), ("b", 1)], names=["road", "number"])
    jams = table_of(ROADWORKS, REFUSED, SLOW, delay=[30, 10, 20]).set_index(index)
    before = jams.copy(deep=True)
    found = olr.locate(jams, "ref", town)
    assert isinstance(found, geopandas.GeoDataFrame) and found.crs.to_epsg() == 4326
    assert found.index.equals(index) and found.index.names == ["road", "number"]
    assert list(found.columns) == ["ref", "delay", *ANSWERS, "geometry"]
    assert found["ref"].tolist() == [ROADWORKS, REFUSED, SLOW]
    assert found["delay"].tolist() == [30, 10, 20]
    # The lines of docs: those of the program's answers to these references.
    assert found["lines"].tolist() == ["107;201;501;503", None, "104;107;201;501"]
    assert found["fault"].tolist() == [None, "BadLength 12", None]
    assert found.geometry.isna().tolist() == [False, True, False]
    pandas.testing.assert_frame_equal(jams, before)


def test_a_table_that_has_geometries(town: olr.Map) -> None:
    """They stay as they are, in their own coordinates; the active ones are those of the places."""
    points = geopandas.points_from_xy([1], [2], crs="EPSG:25832")
    table = geopandas.GeoDataFrame(table_of(SLOW), geometry=points).rename_geometry("drawn")
    found = olr.locate(table, "ref", town)
    assert found.crs.to_epsg() == 4326 and found.geometry.name == "geometry"
    assert found["drawn"].crs.to_epsg() == 25832 and found["drawn"][0].x == 1


def test_cells_that_are_no_references(town: olr.Map) -> None:
    """None of them ends it, and each says what it is."""
    cells = [None, float("nan"), pandas.NA, "", " ", 12.5, 7, b"CwVF", ["x"], SLOW, "no reference"]
    found = olr.locate(table_of(*cells), "ref", town)
    missing = ["Empty"] * 5
    others = [f"BadCell {name}" for name in ("float", "int", "bytes", "list")]
    assert found["fault"].tolist() == [*missing, *others, None, "NotBase64"]
    assert found["verdict"].tolist() == ["fault"] * 9 + ["unique", "fault"]
    assert olr.Fault("BadCell float").meaning == "of olr.locate: the cell has no text, but a float"
    # A column of numbers alone, and a table without rows.
    numbers = pandas.DataFrame({"ref": [1, 2]})
    assert olr.locate(numbers, "ref", town)["fault"].tolist() == ["BadCell int"] * 2
    empty = olr.locate(table_of(), "ref", town)
    assert len(empty) == 0 and (empty.dtypes[list(ANSWERS)] == found.dtypes[list(ANSWERS)]).all()


def test_references_for_urls(town: olr.Map) -> None:
    """They are located as the plain ones, and stay in the table as they are."""
    of_urls = [SLOW.replace("/", "_"), "CwVF-yN2yhpnBAFdAAsaFg", None, "x"]
    plain = [SLOW, "CwVF+yN2yhpnBAFdAAsaFg==", None, "x"]
    found = olr.locate(table_of(*of_urls), "ref", town, base64="url")
    expected = olr.locate(table_of(*plain), "ref", town)
    assert found["ref"].tolist() == of_urls
    assert found.drop(columns="ref").equals(expected.drop(columns="ref"))
    assert found["fault"].tolist() == [None, None, "Empty", "NotBase64"]
    with pytest.raises(ValueError, match="'URL' is no base64: give plain, url"):
        olr.locate(table_of(SLOW), "ref", town, base64="URL")  # type: ignore[arg-type]


def test_the_likeliest_place_and_the_first_matching() -> None:
    """They are the first rows of `to_geodataframe` in the likely order, with probabilities and candidates."""
    texts = [SLOW, BREAKDOWN, ROADWORKS, UNMATCHED, KIOSK]
    town = olr.Map(EXAMPLES / "nodes.csv", EXAMPLES / "lines.csv", profile="feed")
    found = olr.locate(pandas.Series(texts), map=town)
    table = olr.to_geodataframe(
        (
            one
            for one in town.answers("places", texts, order="likely", detail=True, shape=True)
            if isinstance(one, olr.Places)
        ),
        town,
        candidates=town.answers("candidates", texts),
    )
    assert len(table) > len(texts) and table["rank"][table["key"] == 2].tolist()[0] == 2
    first = table.drop_duplicates("key").drop(columns="key").reset_index(drop=True)
    pandas.testing.assert_frame_equal(
        pandas.DataFrame(found[first.columns]), pandas.DataFrame(first)
    )
    assert found["probability"].notna().tolist() == [True, True, True, True, False]
    assert found["candidates"].notna().all()
    matched = olr.locate(pandas.Series(texts), map=town, places=False)
    assert matched["verdict"].tolist() == ["match"] * 5
    assert matched["cursor"][1] == town.match(BREAKDOWN).matchings[0].cursor
    assert matched["probability"].isna().all() and matched["likely"].isna().all()
    town.close()


def test_the_part_of_the_geometry(town: olr.Map) -> None:
    outer = olr.locate(table_of(SLOW), "ref", town).geometry[0]
    inner = olr.locate(table_of(SLOW), "ref", town, part="inner").geometry[0]
    best = town.match(SLOW).matchings[0]
    assert best.outer and best.inner
    # To a microdegree: coordinates of answers are whole ones.
    for drawn, part in ((outer, best.outer), (inner, best.inner)):
        assert drawn.equals_exact(LineString(town.network().path(part)), 1.001e-6)
    with pytest.raises(ValueError, match="outer or inner, not 'middle'"):
        olr.locate(table_of(SLOW), "ref", None, part="middle")  # type: ignore[arg-type]
    with pytest.raises(ValueError, match="outer or inner, not 'middle'"):
        olr.to_geodataframe([], town, part="middle")  # type: ignore[arg-type]


def test_a_series_becomes_a_column() -> None:
    """By its own name, or the one that is given. A path is a map with the usual tolerances, which have probabilities."""
    named = pandas.Series([SLOW], name="message", index=["x"])
    found = olr.locate(named, map=str(EXAMPLES))
    assert list(found.columns)[:2] == ["message", "likely"] and list(found.index) == ["x"]
    assert found["verdict"].tolist() == ["unique"] and found["probability"].notna().all()
    assert olr.locate(named, "other", EXAMPLES).columns[0] == "other"
    assert olr.locate(named.rename(None), map=EXAMPLES).columns[0] == "ref"


def test_messages_of_a_feed(town: olr.Map) -> None:
    """They are a table as they are: with a fault of their own, which stays."""
    feed = TOP / "examples/feeds/detectors.csv"
    messages = pandas.DataFrame(olr.read_feed(feed, "openlr", "id", keep="all"))
    messages.loc[1, "fault"] = "OtherKind Area"
    found = olr.locate(messages, "reference", town)
    own = ["record", "key", "reference", "kept_fault", "kept"]
    assert list(found.columns) == [*own, *ANSWERS, "geometry"]
    assert found["kept_fault"].tolist() == [None, "OtherKind Area", None]
    assert found["fault"].isna().all() and found["verdict"].tolist() == ["unique"] * 3
    assert found["kept"].tolist() == messages["kept"].tolist() and "fault" in messages


def test_columns_of_the_same_name(town: olr.Map) -> None:
    """They are told apart as members that are kept, or by a prefix. Nothing else of the table has another name."""
    drawn = geopandas.GeoSeries.from_xy([1], [2], crs="EPSG:25832")
    others: dict[Any, Any] = {
        "sources": [SLOW],
        "Fault": [1],
        "fault": [2],
        "Lines": [3],
        "delay": [4],
        7: [5],
    }
    table = geopandas.GeoDataFrame({**others, "geometry": drawn}).set_crs("EPSG:25832")
    found = olr.locate(table, "sources", town)
    texts = [name for name in table.columns if isinstance(name, str)]
    names = list(kept_columns(dict.fromkeys(texts, "str"), ANSWERS))
    assert names[1:4] == ["kept_Fault", "kept_fault_2", "kept_Lines"]
    assert list(found.columns) == [*names[:5], 7, names[5], *ANSWERS, "geometry"]
    assert found.iloc[0, :6].tolist() == table.iloc[0, :6].tolist()
    assert found["kept_geometry"].crs.to_epsg() == 25832 and found["kept_geometry"][0].x == 1
    assert found.crs.to_epsg() == 4326 and found.geometry[0].geom_type == "LineString"
    # What was located before is kept too, and so are two columns of one name.
    twice = olr.locate(found.rename(columns={"delay": 7}), "kept_sources", town)
    assert list(twice.columns)[:7] == [*names[:4], 7, 7, "kept_geometry"]
    assert list(twice.columns)[-3:] == ["cursor", "fault", "geometry"]
    assert twice["kept_verdict"].tolist() == twice["verdict"].tolist() == ["unique"]
    assert twice["kept_sources_2"].tolist() == found["sources"].tolist()
    assert twice["kept_geometry_2"].crs.to_epsg() == 4326
    table = table_of(SLOW, verdict=["mine"], geometry=["drawn"])
    found = olr.locate(table, "ref", EXAMPLES, prefix="olr_")
    assert found.loc[0, ["verdict", "geometry", "olr_verdict"]].tolist() == [
        "mine",
        "drawn",
        "unique",
    ]
    assert found.geometry.name == "olr_geometry" and found.geometry[0].geom_type == "LineString"
    assert list(found.columns)[3:] == [f"olr_{name}" for name in (*ANSWERS, "geometry")]


@pytest.mark.parametrize(
    ("data", "words", "error", "text"),
    [
        ([SLOW], ["ref", EXAMPLES], TypeError, "a DataFrame or a Series, not list"),
        (table_of(SLOW), ["ref"], TypeError, "needs a map"),
        (table_of(SLOW), [None, EXAMPLES], TypeError, "the name of the column"),
        (table_of(SLOW), ["other", EXAMPLES], KeyError, "other"),
        (
            table_of(SLOW)[["ref", "ref"]],
            ["ref", EXAMPLES],
            ValueError,
            "more than one column 'ref'",
        ),
        (table_of(SLOW), ["ref", TOP / "none"], olr.ToolError, "can't be read"),
    ],
)
def test_what_isnt_a_table_or_a_map(
    data: Any, words: list[Any], error: type[Exception], text: str
) -> None:
    with pytest.raises(error, match=text):
        olr.locate(data, *words)


def test_a_map_that_isnt_answered() -> None:
    """It ends the table: no row would have an answer."""
    with olr.Map(EXAMPLES, program="/bin/true") as asked:
        with pytest.raises(olr.ProgramEnded, match="olr ended with status 0"):
            olr.locate(table_of(SLOW), "ref", asked)


def test_a_confidence_for_other_tolerances(plain_town: olr.Map) -> None:
    """One that was given is refused, and so no column of probabilities is empty unseen."""
    with pytest.raises(olr.ToolError, match="says nothing of such answers: radius is 100, not 75"):
        olr.locate(table_of(SLOW), "ref", plain_town, confidence=olr.Confidence.default())


def test_a_confidence_that_is_given(town: olr.Map) -> None:
    """Its probabilities are shown, and not those of the usual one."""
    usual = olr.Confidence.default()
    other = replace(usual, weights={**usual.weights, "none": usual.weights["none"] + 8 * ORDER})
    first, second = (
        olr.locate(table_of(SLOW), "ref", town, confidence=sure).loc[0, "probability"]
        for sure in (usual, other)
    )
    assert first > 0.9 > second
    assert olr.view(SLOW, town).page == olr.view(SLOW, town, confidence=usual).page
    assert olr.view(SLOW, town).page != olr.view(SLOW, town, confidence=other).page


def test_how_far_it_is(
    town: olr.Map, monkeypatch: pytest.MonkeyPatch, capsys: pytest.CaptureFixture[str]
) -> None:
    monkeypatch.setattr("olr.progress.SECONDS_OF_LINES", 0.0)
    olr.locate(table_of(SLOW, None), "ref", town)
    assert capsys.readouterr().err.splitlines()[-1] == "locating: 2 of 2"


def test_a_map_that_was_given_stays_open(town: olr.Map) -> None:
    """One that was made of a path is closed."""
    with opened(town) as asked:
        assert asked is town
    assert town.places(SLOW).verdict == "unique"
    with opened(EXAMPLES) as asked:
        assert repr(asked).startswith("Map(")
    assert repr(asked).startswith("<closed Map(")


# ---- the lines of a map


def test_the_lines_of_a_map(own_folder: Path) -> None:
    """They are those of its files, in their order."""
    head, *records = (EXAMPLES / "lines.csv").read_text().splitlines()
    (own_folder / "lines.csv").write_text("\n".join([head, *reversed(records)]) + "\n")
    network = olr.Network.read(own_folder)
    with (EXAMPLES / "nodes.csv").open() as stream:
        nodes = {row["id"]: (int(row["lon"]), int(row["lat"])) for row in csv.DictReader(stream)}
    table = network.to_geodataframe()
    with (own_folder / "lines.csv").open() as stream:
        rows = list(csv.DictReader(stream))
    assert list(table.columns) == ["line", "start", "end", "class", "form", "length_m", "geometry"]
    assert table.crs.to_epsg() == 4326 and len(table) == len(rows) == 41
    for found, row in zip(table.itertuples(index=False, name=None), rows):
        names = ("id", "from", "to", "class", "form")
        assert found[:5] == tuple(int(row[name]) for name in names)
        assert found[5] == int(row["length"]) / 10
        inner = [tuple(map(int, point.split())) for point in filter(None, row["shape"].split(";"))]
        path = [nodes[row["from"]], *inner, nodes[row["to"]]]
        assert [(round(lon * 1e6), round(lat * 1e6)) for lon, lat in found[6].coords] == path
    some = network.to_geodataframe([501, 104])
    assert some["line"].tolist() == [501, 104]
    assert some.geometry[1].coords[:] == list(map(tuple, network.path([(104, 0, 2435)]).tolist()))
    with pytest.raises(olr.ToolError, match="has no line 7"):
        network.to_geodataframe([7])


def test_the_lines_of_a_store(tmp_path: Path) -> None:
    make_store_of_folder(EXAMPLES, tmp_path / "town.gpkg")
    network = olr.Network.read(tmp_path / "town.gpkg")
    with pytest.raises(olr.ToolError, match="too large for a table: name its lines"):
        network.to_geodataframe()
    found = network.to_geodataframe(iter([501, 104]))
    expected = olr.Network.read(EXAMPLES).to_geodataframe([501, 104])
    pandas.testing.assert_frame_equal(pandas.DataFrame(found), pandas.DataFrame(expected))


# ---- pages


@pytest.mark.parametrize("text", [ROADWORKS, UNMATCHED])
def test_a_view_is_the_page_of_the_command(text: str, tmp_path: Path, own_folder: Path) -> None:
    """To the byte, of a path and of a map, with probabilities and without, with another number, by which a place isn't shown."""
    of_feed, of_program = tmp_path / "feed.html", tmp_path / "program.html"
    words = ["view", text, "--map", str(own_folder), "--within", "1", "--out"]
    assert run([*words, str(of_feed)]) == 0
    assert run([*words, str(of_program), *OF_PROGRAM]) == 0
    assert olr.view(text, own_folder, within=1).page == of_feed.read_text()
    with olr.Map(own_folder) as asked:
        assert olr.view(text, asked, within=1).page == of_feed.read_text()
        answer = about(asked.why(text), text)
        assert olr.view(answer, asked, within=1).page == of_feed.read_text()
    with olr.Map(own_folder, profile="program") as asked:
        assert olr.view(text, asked, within=1).page == of_program.read_text()


def test_a_view_by_the_program_of_its_map(
    program: Program, monkeypatch: pytest.MonkeyPatch
) -> None:
    """All of the page is by the one that was named, whatever the environment names."""
    expected = olr.view(SLOW, EXAMPLES).page
    monkeypatch.setenv("OLR_PROGRAM", "/nowhere/olr")
    with olr.Map(EXAMPLES, program=program.path) as asked:
        assert olr.view(SLOW, asked).page == expected


def test_a_view_in_a_notebook(tmp_path: Path) -> None:
    """The frame has the whole page, and may reach nothing of the notebook."""
    shown = olr.view(SLOW, EXAMPLES, tiles="https://tiles.example/{z}/{x}/{y}.png")
    assert repr(shown) == f"<View: {SLOW}: unique>"
    (found,) = re.findall(r'srcdoc="([^"]*)"', shown._repr_html_())
    assert html.unescape(found) == shown.page and "https://tiles.example" in shown.page
    assert re.findall(r'sandbox="([^"]*)"', shown._repr_html_()) == ["allow-scripts"]
    assert ElementTree.fromstring(shown._repr_html_()).tag == "iframe"
    shown.save(tmp_path / "page.html")
    assert (tmp_path / "page.html").read_text() == shown.page
    olr.view(KIOSK, EXAMPLES).save(str(tmp_path / "page.html"))
    assert KIOSK in (tmp_path / "page.html").read_text()
    with pytest.raises(olr.ToolError, match="no suffix that is known"):
        shown.save(tmp_path / "page.txt")


def test_what_cant_be_viewed(plain_town: olr.Map) -> None:
    with pytest.raises(TypeError, match="doesn't know its reference"):
        olr.view(olr.Page([]), plain_town)
    with pytest.raises(olr.Fault, match="BadLength 12"):
        olr.view(REFUSED, plain_town)
    with pytest.raises(olr.Fault, match="BadNumber within"):
        olr.view(SLOW, plain_town, within=-1)
    with pytest.raises(olr.ToolError, match="says nothing of such answers"):
        olr.view(SLOW, plain_town, confidence=olr.Confidence.default())


def test_a_view_names_no_folder_that_isnt_the_map(plain_town: olr.Map, tmp_path: Path) -> None:
    """The command on the page would ask with the bans of the folder; and the program reads no store."""
    make_store_of_folder(EXAMPLES, tmp_path / "town.gpkg")
    assert '"command":""' in olr.view(SLOW, plain_town).page
    assert '"command":""' in olr.view(SLOW, tmp_path / "town.gpkg").page
    assert '"command":"olr places' in olr.view(SLOW, EXAMPLES).page


def test_answers_of_a_map_know_their_reference(town: olr.Map, tmp_path: Path) -> None:
    """However they are asked for, on a folder and on a store."""
    make_store_of_folder(EXAMPLES, tmp_path / "town.gpkg")
    with olr.Map(tmp_path / "town.gpkg") as store:
        for asked in (town, store):
            first, second = asked.pages(BREAKDOWN, page=3)
            answers = [asked.why(SLOW), asked.places(SLOW), asked.candidates(SLOW), first, second]
            assert [it.ref for it in answers] == [SLOW] * 3 + [BREAKDOWN] * 2
            found = asked.answers("places", iter([SLOW, REFUSED, ROADWORKS]))
            assert [getattr(it, "ref", None) for it in found] == [SLOW, None, ROADWORKS]
    assert olr.view(town.places(SLOW), town).title.startswith(SLOW)
