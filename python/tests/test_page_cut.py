"""`olr-tools page` of a part of a map, cut out by a box, and of a store; and the sources and names of roads in a page."""

import base64
import csv
import gzip
import json
import pytest
import re
from pathlib import Path

from asking import draw_map, draw_references
from browser import Browser
from conftest import TOP, Program, Tools
from olr.commands.options import BoxParameter
from olr.model.box import Box
from olr.model.map_folder import BANS, LINES, NODES, read_map
from olr.model.reference import read_reference
from olr.model.road_map import Origin, Position, RoadMap
from olr.model.sources import IDS, Sources, write_origins
from olr.pages.alone.sources import SOURCES
from olr.regions.making import make_store_of_folder
from olr.regions.options import Options
from olr.regions.plane import Discs
from olr.regions.region import discs_of
from olr.regions.store import Store
from servers import serving
from stores import map_with_bans
from test_page import READY, asked

FEATURES = {"Accept": "application/geo+json-seq", "Content_Type": "text/plain"}
CUT = "7.41,49.86,7.4222,49.88"
"""A box in the west of the town."""
NAMES = ["High Street", 'Straße "Ü";, <b>&\u2028\x7f</script>', "", "Rue de l'Église\\\t\U0001f6e3"]


def page_of(tools: Tools, place: Path, path: Path, *words: object) -> tuple[Path, str]:
    """The page of a map, and what the command prints."""
    file = place / "page.html"
    ended = tools.run("page", "--map", path, "--out", file, "--force", *words)
    assert ended.returncode == 0, ended.stderr
    return file, ended.stdout


def refused(tools: Tools, place: Path, path: Path, *words: object) -> str:
    """Why there is no page of a map."""
    ended = tools.run("page", "--map", path, "--out", place / "none.html", *words)
    assert ended.returncode == 1 and ended.stderr.count("\n") == 1, ended
    assert not (place / "none.html").exists()
    return ended.stderr.removeprefix("olr-tools: ").rstrip("\n")


def carried(page: Path) -> dict[str, bytes]:
    """The files that a page carries."""
    found = re.search(r'<script id="packed" type="text/plain">([^<]*)<', page.read_text())
    assert found is not None
    head, _, content = gzip.decompress(base64.b64decode(found[1])).partition(b"\n")
    files = {}
    for one in json.loads(head):
        files[one["name"]], content = content[: one["size"]], content[one["size"] :]
    return files


def map_in(page: Path, folder: Path) -> Path:
    """The map that a page carries, as a folder."""
    folder.mkdir()
    for name, content in carried(page).items():
        if name in (NODES, LINES, BANS):
            (folder / name).write_bytes(content)
    return folder


def cut_by_hand(whole: RoadMap, box: Box) -> RoadMap:
    """The lines of a map whose own boxes meet another one, with their ends and the bans between them."""
    spots = {node.id: node.position for node in whole.nodes}

    def meets(points: list[Position]) -> bool:
        lons, lats = [one.lon for one in points], [one.lat for one in points]
        is_beside = min(lons) <= box.east and max(lons) >= box.west
        return is_beside and min(lats) <= box.north and max(lats) >= box.south

    lines = [
        line for line in whole.lines if meets([spots[line.start], *line.shape, spots[line.end]])
    ]
    ids, ends = {line.id for line in lines}, {end for line in lines for end in line[1:3]}
    nodes = [node for node in whole.nodes if node.id in ends]
    return RoadMap(nodes, lines, [ban for ban in whole.bans if ids.issuperset(ban)])


def is_same(one: RoadMap, other: RoadMap) -> bool:
    """Whether two maps have the same nodes, lines and bans, in whatever order."""
    return all(
        sorted(found) == sorted(wanted)
        for found, wanted in (
            (one.nodes, other.nodes),
            (one.lines, other.lines),
            (one.bans, other.bans),
        )
    )


@pytest.fixture(scope="module")
def drawn(tmp_path_factory: pytest.TempPathFactory) -> Path:
    """A drawn map with bans, as a folder, and as a store beside it."""
    place = tmp_path_factory.mktemp("drawn")
    folder = map_with_bans(place / "map")
    make_store_of_folder(folder, place / "map.gpkg")
    return folder


@pytest.fixture(scope="module")
def town(tmp_path_factory: pytest.TempPathFactory) -> Path:
    """The town of the examples as a folder, and as a store beside it: its files are the other way round, some lines have no source, and
    some names are hard to write."""
    place = tmp_path_factory.mktemp("town")
    folder = place / "town"
    folder.mkdir()
    for name in (NODES, LINES, BANS):
        header, *rows = (TOP / "examples" / name).read_text().splitlines()
        (folder / name).write_text("\n".join([header, *rows[::-1]]) + "\n")
    origins = [
        Origin(
            line.id, f"w{line.id // 100}", "forward", 0, NAMES[line.id // 2 % len(NAMES)], ("x",)
        )
        for number, line in enumerate(read_map(folder).lines)
        if number % 7
    ]
    write_origins(folder / IDS, origins, ("surface",))
    make_store_of_folder(folder, place / "town.gpkg")
    return folder


def middle_of(whole: RoadMap) -> Box:
    """A box whose edges go through nodes."""
    lons, lats = (sorted(spots) for spots in zip(*(node.position for node in whole.nodes)))
    first, last = len(lons) // 3, 2 * len(lons) // 3
    return Box(lons[first], lats[first], lons[last], lats[last])


@pytest.mark.parametrize("suffix", ["", ".gpkg"])
def test_what_reaches_into_the_box(
    tools: Tools, program: Program, tmp_path: Path, drawn: Path, suffix: str
) -> None:
    whole = read_map(drawn)
    box = middle_of(whole)
    path = drawn.with_name(f"map{suffix}")
    page, said = page_of(tools, tmp_path, path, "--bbox", box.text())
    found = read_map(map_in(page, tmp_path / "cut"))
    assert is_same(found, cut_by_hand(whole, box))
    lines, bans = len(found.lines), len(found.bans)
    assert 20 < lines < len(whole.lines) / 2 and 0 < bans < len(whole.bans)
    cut = f", cut to the box {box.text()}"
    assert said.endswith(f" MB, with a map of {lines} lines{cut}\n")
    assert f"and the map {path.name}{cut}.\n" in page.read_text()
    assert "The map ends at the edges of that box" in page.read_text()
    assert SOURCES not in carried(page)


@pytest.mark.parametrize("suffix", ["", ".gpkg"])
def test_a_map_that_isnt_cut(tools: Tools, tmp_path: Path, drawn: Path, suffix: str) -> None:
    page, said = page_of(tools, tmp_path, drawn.with_name(f"map{suffix}"))
    found, whole = read_map(map_in(page, tmp_path / "found")), read_map(drawn)
    ends = {end for line in whole.lines for end in line[1:3]}
    assert ends == {node.id for node in found.nodes}.intersection(ends)
    assert sorted(found.lines) == sorted(whole.lines) and sorted(found.bans) == sorted(whole.bans)
    assert said.endswith(f"with a map of {len(whole.lines)} lines\n")
    assert "cut to" not in page.read_text() and "that box" not in page.read_text()


def test_a_folder_that_has_a_store(tools: Tools, tmp_path: Path, drawn: Path) -> None:
    """As an import writes it."""
    folder = tmp_path / "country"
    folder.mkdir()
    (folder / "map.gpkg").write_bytes(drawn.with_name("map.gpkg").read_bytes())
    page, _ = page_of(tools, tmp_path, folder, "--bbox", middle_of(read_map(drawn)).text())
    assert "and the map country, cut to" in page.read_text()


def test_a_reference_well_within_the_box(tools: Tools, program: Program, tmp_path: Path) -> None:
    """Where its region is in the box it has the answer of the whole map."""
    folder = draw_map(tmp_path / "map")
    store = tmp_path / "map.gpkg"
    make_store_of_folder(folder, store)
    text = next(text for text in draw_references(folder, 20) if read_reference(text) is not None)
    read = read_reference(text)
    assert read is not None
    with Store.open(store) as opened:
        west, south, east, north = Discs.of(discs_of(read, Options(), opened, "places")).boxes()
    box = Box(int(west.min()), int(south.min()), int(east.max()) + 1, int(north.max()) + 1)
    page, _ = page_of(tools, tmp_path, store, "--bbox", box.text())
    cut = map_in(page, tmp_path / "cut")
    assert len(read_map(cut).lines) < len(read_map(folder).lines)
    answers = [program.run("places", text, "--map", one).stdout for one in (folder, cut)]
    assert answers[0] == answers[1] != ""


def test_what_is_refused(
    tools: Tools, tmp_path: Path, drawn: Path, monkeypatch: pytest.MonkeyPatch
) -> None:
    store, whole = drawn.with_name("map.gpkg"), read_map(drawn)
    points = [node.position for node in whole.nodes] + [at for it in whole.lines for at in it.shape]
    lons, lats = [one.lon for one in points], [one.lat for one in points]
    extent = Box(min(lons), min(lats), max(lons), max(lats)).text()
    for path in (drawn, store):
        assert refused(tools, tmp_path, path, "--bbox", "170,-80,171,-79") == (
            f"no line of {path} reaches into the box 170,-80,171,-79: its lines lie within {extent}"
        )
    assert "nodes.csv can't be read" in refused(tools, tmp_path, tmp_path, "--bbox", "0,0,1,1")
    none = tmp_path / "none.gpkg"
    assert refused(tools, tmp_path, none).startswith(f"there is no store {none}: ")
    monkeypatch.setattr("olr.model.road_map.MOST_LINES", 399)
    assert refused(tools, tmp_path, store) == (
        "the map is too large for olr (400 lines, 399 at most): cut a part out of it by --bbox W,S,E,N"
    )
    said = refused(tools, tmp_path, store, "--bbox", "-180,-80,180,80")
    assert said.startswith(
        f"the box -180,-80,180,80 of {store} is too large: a page carries 100,000"
    )
    assert said.endswith(" at most: give a smaller one")
    page_of(tools, tmp_path, store, "--bbox", middle_of(whole).text())


def test_a_folder_that_is_too_large(tools: Tools, tmp_path: Path) -> None:
    """As the program sees it."""
    (tmp_path / NODES).write_text(
        "id,lon,lat\n" + "".join(f"{id},{id},1\n" for id in range(1, 100_002))
    )
    (tmp_path / LINES).write_text("id,from,to,class,form,length,shape\n1,1,2,3,3,1,\n")
    assert refused(tools, tmp_path, tmp_path) == (
        f"{tmp_path} is too large for a page: cut a part out of it by --bbox W,S,E,N"
    )
    _, said = page_of(tools, tmp_path, tmp_path, "--bbox", "0,0,1,1")
    assert "with a map of 1 lines, cut to the box 0,0,1,1" in said


@pytest.mark.parametrize("box", ["1,2,3", "2,0,1,1", "0,0,181,1", "west"])
def test_what_is_no_box(tools: Tools, tmp_path: Path, drawn: Path, box: str) -> None:
    ended = tools.run("page", "--map", drawn, "--out", tmp_path / "page.html", "--bbox", box)
    assert ended.returncode == 2 and "Invalid value for '--bbox'" in ended.stderr


@pytest.mark.parametrize("text", ["-180,-90,180,90", "0,0,0.000001,10", "7.41,49.86,7.4145,49.88"])
def test_the_text_of_a_box(text: str) -> None:
    assert BoxParameter().convert(text, None, None).text() == text


def test_sources_that_cant_be_read(tools: Tools, tmp_path: Path) -> None:
    for name in (NODES, LINES):
        (tmp_path / name).write_bytes((TOP / "examples" / name).read_bytes())
    (tmp_path / IDS).write_text("id,other\n1,2\n")
    said = refused(tools, tmp_path, tmp_path)
    assert "ids.csv doesn't begin with the header" in said and "rename it" in said


@pytest.mark.parametrize(("name", "words"), [("town", []), ("town.gpkg", ["--bbox", CUT])])
def test_features_have_sources_and_names(
    browser: Browser,
    tools: Tools,
    program: Program,
    tmp_path: Path,
    town: Path,
    name: str,
    words: list[str],
) -> None:
    """The bytes of a server on the same lines."""
    page, _ = page_of(tools, tmp_path, town.with_name(name), *words)
    folder = map_in(page, tmp_path / "town")
    (folder / IDS).write_bytes((town / IDS).read_bytes())
    body = (TOP / "examples/messages.tsv").read_text()
    query = "batch/places?radius=100&look=1000"
    browser.open(page)
    browser.value(READY)
    status, found = asked(browser, query, method="POST", body=body, headers=FEATURES)
    with serving(program.path, folder, tmp_path / "log") as server:
        reply = server.get(f"/{query}", "POST", body, **FEATURES)
    assert (status, reply.status, found) == (200, 200, reply.body.decode())
    features = [json.loads(line[1:])["properties"] for line in found.split("\n")[:-1]]
    assert any(one["sources"] for one in features)
    assert any(NAMES[1] in (one["names"] or "") for one in features)
    shown = browser.value("document.getElementById('served').textContent")
    assert shown == f"map {name}" + (f", cut to the box {CUT}" if words else "")
    assert (browser.errors, browser.loaded) == ([], [])


def test_what_a_page_has_of_sources(tools: Tools, tmp_path: Path, town: Path) -> None:
    """Each road once, with its lines."""
    for path in (town, town.with_name("town.gpkg")):
        page, _ = page_of(tools, tmp_path, path)
        files = carried(page)
        found = json.loads(files[SOURCES])
        roads = [(source, name) for source, name, _ in found]
        known = {line: (source, name) for source, name, lines in found for line in lines}
        assert len(set(roads)) == len(roads) < len(known)
        ids = [int(row["id"]) for row in csv.DictReader(files[LINES].decode().splitlines())]
        sources = Sources.of_folder(town)
        assert known == {id: (one.source, one.name) for id, one in sources.items()}
        assert {id for id in ids if id not in sources} and "surface" not in files[SOURCES].decode()
