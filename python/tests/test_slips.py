"""Slips of the pen: each gives one line that names what is wrong and says what to do, and no traceback."""

import os
import pandas
import pytest
import shlex
import shutil
from collections.abc import Iterator
from pathlib import Path
from typing import Any, NamedTuple

import olr
from conftest import REFERENCE, TOP, Program, Tools
from olr.regions.making import make_store_of_folder
from vector_files import STREETS


class Slip(NamedTuple):
    """Words that somebody typed, and what is said of them."""

    typed: str
    """In a shell, or in Python."""
    named: str
    """What the line names."""
    remedy: str
    """What it says to do."""


SEE = "(see olr-tools {} --help)"
MAP_WANTED = "name a folder with nodes.csv and lines.csv"
MESSAGES_WANTED = "name a file of messages, or ask olr about one reference"
OUT_WANTED = "name a file .gpkg, .geojson or .csv"

WORDS = [
    # ---- of which command
    Slip("mtach feed.tsv", "No such command 'mtach'", "did you mean match?"),
    Slip("import omm roads.osm", "No such command 'omm'", "did you mean osm?"),
    Slip(f"show {REFERENCE}", "No such command 'show'", "a command of olr, such as olr show REF"),
    Slip("explain Header", "No such command 'explain'", "such as olr explain NAME"),
    Slip("batch", "No such command 'batch'", "such as olr batch places"),
    Slip(
        f"{REFERENCE} --map town",
        REFERENCE,
        "which olr show reads and olr-tools view draws",
    ),
    Slip("--map town match feed.tsv", "No such option: --map", "(see olr-tools --help)"),
    Slip("setup --test", "No such option: --test", "did you mean --tests?"),
    # ---- of its options
    Slip("match", "Missing argument 'FILE'", SEE.format("match")),
    Slip("match feed.tsv", "Missing option '--map'", SEE.format("match")),
    Slip("match feed.tsv --map town", "Missing option '--out'", SEE.format("match")),
    Slip("match feed.tsv --map town --out o.csv --raduis 50", "--raduis", "did you mean --radius?"),
    Slip(
        "match feed.tsv --map town --out o.csv --radius 5.5",
        "'5.5' is not a whole number",
        SEE.format("match"),
    ),
    Slip("match feed.tsv other.tsv --map town --out o.csv", "other.tsv", SEE.format("match")),
    Slip(
        "match feed.tsv --map town --out o.csv --format tsv",
        "'tsv' is not one of 'tab', 'csv'",
        SEE.format("match"),
    ),
    Slip(
        "match feed.tsv --map town --out o.csv --profile fed",
        "'fed' is not one of 'program', 'feed'",
        SEE.format("match"),
    ),
    Slip(
        "match feed.tsv --map town --out o.csv --within 5",
        "--within is for places, not for match",
        SEE.format("match"),
    ),
    Slip(
        "match feed.tsv --map town --out o.csv --confidence c.json",
        "--confidence is for --places",
        SEE.format("match"),
    ),
    Slip(
        "match feed.tsv --map town --out o.csv --force --append",
        "--append adds to it",
        "give one of them",
    ),
    Slip(
        "match feed.tsv --map town --out o.csv --pieces o.csv",
        "--pieces and --out name one file",
        "name two",
    ),
    Slip(
        "match feed.tsv --map town --out o.csv --patience soon",
        "'soon' is not a number",
        SEE.format("match"),
    ),
    Slip(
        "compare feed.tsv --map town --out o.csv", "Missing option '--with'", SEE.format("compare")
    ),
    Slip(
        "compare feed.tsv --map town --with town --out o.csv --across 2000",
        "2000 is not in the range 0<=x<=1000",
        SEE.format("compare"),
    ),
    Slip(
        "compare feed.tsv --map town --with town --out o.csv --fail-lost 5%",
        "'5%' is not a whole number",
        SEE.format("compare"),
    ),
    Slip(
        "check town --fail trap",
        "'trap' isn't looked at",
        "give one of close-to-the-limit, dead-ends",
    ),
    Slip("check town --most -1", "-1 is not in the range x>=0", SEE.format("check")),
    Slip(
        "import osm town.osm --out m --bbox 6.0,49.5",
        "'--bbox'",
        "four numbers are needed, in degrees: W,S,E,N, such as",
    ),
    Slip(
        "import vector streets.shp --out m --class 5",
        "Missing option '--form'",
        SEE.format("import vector"),
    ),
    Slip(
        "serve --map town --port 99999",
        "99999 is not in the range 0<=x<=65535",
        SEE.format("serve"),
    ),
    Slip("serve --map town --map town", "several maps have a name each", "--map NAME=DIR"),
    Slip(
        "serve --map match=town --map b=town",
        "'match' isn't a name of a map",
        "an address begins so",
    ),
    Slip(
        "serve --map town --allow-origin maps.example",
        "'maps.example' isn't an origin",
        "such as https://maps.example",
    ),
    Slip("serve --map town --root-path olr", "'olr' isn't a path", "such as /olr"),
    Slip(
        "calibrate --map town --out c.json --checked c.csv",
        "--checked is for --for",
        SEE.format("calibrate"),
    ),
    Slip(
        "run feed.tsv --map town --store town.gpkg --out d",
        "--map and --store name two maps",
        "name one",
    ),
]
"""Which aren't understood: the status is 2."""

FAILURES = [
    # ---- of a map
    Slip("match feed.tsv --map nowhere --out o.csv", "nowhere/nodes.csv", MAP_WANTED),
    Slip("match feed.tsv --map empty --out o.csv", "empty/nodes.csv", MAP_WANTED),
    Slip(
        "match feed.tsv --map text.txt --out o.csv",
        "text.txt isn't a store",
        "name one, or the folder of a map",
    ),
    Slip(
        "match feed.tsv --map nowhere.gpkg --out o.csv",
        "there is no store nowhere.gpkg",
        "make it by olr-tools regions",
    ),
    Slip("report feed.tsv --map nowhere --out r.html", "nowhere/nodes.csv", MAP_WANTED),
    Slip("compare feed.tsv --map town --with nowhere --out o.csv", "nowhere/nodes.csv", MAP_WANTED),
    Slip(f"view {REFERENCE} --map nowhere --out v.html", "nowhere/nodes.csv", MAP_WANTED),
    Slip("run feed.tsv --map nowhere --out d", "nowhere/nodes.csv", MAP_WANTED),
    Slip(
        "run feed.tsv --store nowhere.gpkg --out d",
        "there is no store nowhere.gpkg",
        "make it by olr-tools regions",
    ),
    Slip("page --map nowhere --out p.html", "nowhere/nodes.csv", MAP_WANTED),
    Slip("calibrate --map nowhere --out c.json", "nowhere/nodes.csv", MAP_WANTED),
    Slip("calibrate --map town --pair nowhere --out c.json", "nowhere/nodes.csv", MAP_WANTED),
    Slip("regions nowhere --out s.gpkg", "there is no map in nowhere", MAP_WANTED),
    Slip("u-turns nowhere", "nowhere/nodes.csv", MAP_WANTED),
    Slip("u-turns town/nodes.csv", "town/nodes.csv isn't the folder of a map", MAP_WANTED),
    Slip("check nowhere.gpkg", "there is no store nowhere.gpkg", "make it by olr-tools regions"),
    # ---- of a file that is read
    Slip("match nowhere.tsv --map town --out o.csv", "nowhere.tsv", MESSAGES_WANTED),
    Slip(
        "match town --map town --out o.csv", "town can't be read: Is a directory", MESSAGES_WANTED
    ),
    Slip(f"match {REFERENCE} --map town --out o.csv", REFERENCE, MESSAGES_WANTED),
    Slip("compare nowhere.tsv --map town --with town --out o.csv", "nowhere.tsv", MESSAGES_WANTED),
    Slip("report nowhere.tsv --map town --out r.html", "nowhere.tsv", MESSAGES_WANTED),
    Slip("run nowhere.tsv --map town --out d", "nowhere.tsv", MESSAGES_WANTED),
    Slip("calibrate --map town --for nowhere.tsv --out c.json", "nowhere.tsv", MESSAGES_WANTED),
    Slip("match text.txt --map town --out o.csv", "text.txt has no column ref", "name it by --ref"),
    Slip(
        "match feed.tsv --map town --out o.csv --ref code",
        "feed.tsv has no names of columns",
        "leave out --ref",
    ),
    Slip(
        "match feed.tsv --map town --out o.csv --places --confidence nowhere",
        "nowhere",
        "olr-tools calibrate makes one",
    ),
    Slip("import osm nowhere.pbf --out m", "nowhere.pbf isn't a file", "name one of OpenStreetMap"),
    Slip(
        "import osm text.txt --out m",
        "text.txt can't be read as OpenStreetMap data",
        "of other files olr-tools import vector makes a map",
    ),
    Slip(
        "import vector nowhere.shp --class 5 --form 3 --out m", "nowhere.shp", "name a GeoPackage"
    ),
    Slip("import vector streets.shp --class lanes --form 3 --out m", "lanes", "streets.shp"),
    Slip(
        "regions text.txt --out s.gpkg",
        "text.txt isn't an OpenStreetMap file",
        "make a map of it first, by olr-tools import",
    ),
    # ---- of a file that is written
    Slip("match feed.tsv --map town --out o.txt", "o.txt has no suffix that is known", OUT_WANTED),
    Slip(
        "match feed.tsv --map town --out there.csv",
        "there.csv is there",
        "name another file, or replace it by --force",
    ),
    Slip(
        "match feed.tsv --map town --out town/nodes.csv --force",
        "town/nodes.csv is one of the inputs",
        "name another file",
    ),
    Slip(
        "report feed.tsv --map town --out r.csv",
        "r.csv has no suffix that is known",
        "name a file .html",
    ),
    Slip("run feed.tsv --map town --out town", "town isn't empty", "name another folder"),
    Slip("import osm town.osm --out town", "town isn't empty", "replace its map by --force"),
    # ---- of a number, or a text
    Slip(
        "match feed.tsv --map town --out o.csv --radius -5",
        "radius is a whole number of metres from 1 to 1000",
        "not -5",
    ),
    Slip(
        "match feed.tsv --map town --out o.csv --page 0",
        "page is a whole number of matchings from 1 to 1000",
        "not 0",
    ),
    Slip("view feed.tsv --map town --out v.html", "NotBase64", "replace - by + and _ by /"),
    Slip(
        f"view {REFERENCE} --map town --out v.html --tiles x",
        "x is no URL of tiles",
        "one looks like https://",
    ),
    Slip("view m9 --messages feed.tsv --map town --out v.html", "m9", "feed.tsv"),
    Slip(
        "serve --map town --host 192.0.2.1",
        "192.0.2.1 port 8000 can't be listened to",
        "give another --port, or a --host of this machine",
    ),
    Slip("serve --map nowhere", "nowhere/nodes.csv", MAP_WANTED),
]
"""Of what can't be done: the status is 1."""


IN_PYTHON = [
    Slip("olr.Map('nowhere').match(REFERENCE)", "nowhere/nodes.csv", MAP_WANTED),
    Slip("olr.Map('nowhere').network()", "nowhere/nodes.csv", MAP_WANTED),
    Slip("olr.Map('town/nodes.csv', 'lines.csv').match(REFERENCE)", "lines.csv", MAP_WANTED),
    Slip("olr.Map('nowhere.gpkg')", "there is no store nowhere.gpkg", "olr-tools regions"),
    Slip(
        "olr.Map('town', radius=0)", "radius is a whole number of metres", "from 1 to 1000, not 0"
    ),
    Slip("olr.Map('town', radius='50')", "radius is a whole number of metres", "not '50'"),
    Slip("olr.Map('town', raduis=50)", "raduis", "the tolerances are radius, bearing"),
    Slip("olr.Map('town', profile='fed')", "'fed' is no profile", "the profiles are program, feed"),
    Slip("olr.Map('town', patience=0)", "not 0", "patience is a number of seconds above 0"),
    Slip("olr.Network.read('nowhere')", "nowhere/nodes.csv", MAP_WANTED),
    Slip("olr.Network('n.csv', 'l.csv')", "n.csv", MAP_WANTED),
    Slip("olr.Network('nowhere')", "nowhere/nodes.csv", MAP_WANTED),
    Slip("olr.Confidence.of_file('nowhere')", "nowhere", "olr-tools calibrate makes one"),
    Slip("olr.read_messages('nowhere.tsv')", "nowhere.tsv", "name a file of messages"),
    Slip("olr.read_feed('nowhere.tsv')", "nowhere.tsv", "name a file of messages"),
    Slip("olr.read_messages('feed.tsv', format='tsv')", "'tsv' is no format", "give tab, csv"),
    Slip(
        "__import__('pickle').dumps(olr.Map('town'))", "can't be pickled", "open it in each process"
    ),
    Slip("list(olr.read_messages('feed.tsv', ref='code'))", "feed.tsv", "leave out --ref"),
    Slip("olr.view(REFERENCE, 'nowhere')", "nowhere/nodes.csv", MAP_WANTED),
    Slip("olr.locate(TABLE, 'ref', 'nowhere')", "nowhere/nodes.csv", MAP_WANTED),
    Slip("olr.locate(TABLE, 'code', 'town')", "no column 'code'", "it has ref"),
    Slip("olr.locate('feed.csv', 'ref', 'town')", "not str", "takes a DataFrame or a Series"),
    Slip("olr.locate(TABLE, 'ref')", "locate needs a map", "give an olr.Map, or the path of one"),
    Slip("olr.decode(None)", "not NoneType", "olr.locate gives each a fault"),
    Slip("olr.decode(b'CwVF')", "not bytes", "give data.decode()"),
    Slip("olr.decode('CwVG-y')", "NotBase64", "replace - by +"),
    Slip("olr.decode(REFERENCE, program='nowhere/olr')", "nowhere/olr", "name the program"),
    Slip(
        "olr.decode(REFERENCE, program='feed.tsv')",
        "feed.tsv",
        "can't be started: Permission denied",
    ),
    Slip("town.match([REFERENCE])", "not list", "a reference is a text"),
    Slip("town.match(REFERENCE, page=0)", "not 0", "page is a whole number of matchings from 1"),
    Slip("town.match(REFERENCE, after='x')", "BadCursor", "copy what follows"),
    Slip("town.matches(REFERENCE)", "not one text", "ask match about one"),
    Slip("town.matches(TABLE)", "not a table", "give one of its columns"),
    Slip("town.answers('place', [REFERENCE])", "'place' is no question", "ask candidates, match"),
    Slip("town.answers('places', [REFERENCE], page=3)", "has no page", "it has apart, within"),
    Slip("olr.to_geodataframe(town.match(REFERENCE), town)", "not one", "give a list"),
    Slip("olr.to_geodataframe([], 'town')", "not str", "takes the map that was asked"),
    Slip("CLOSED.match(REFERENCE)", "this map is closed", "make another one"),
]
"""Calls, each of which raises an error whose text is one line."""

OF_OLR = [
    Slip("mtach", "unrecognized subcommand 'mtach'", "'match'"),
    Slip(
        f"match {REFERENCE} --map town --raduis 5", "unexpected argument '--raduis'", "'--radius'"
    ),
]
"""Of the program itself: these may have several lines."""


@pytest.fixture(scope="module")
def folder(tmp_path_factory: pytest.TempPathFactory) -> Path:
    """What the slips are about: a map and its store, a feed, a text, a file that is there, streets, and an empty folder."""
    folder = tmp_path_factory.mktemp("slips")
    (folder / "empty").mkdir()
    (folder / "town").mkdir()
    for name in ("nodes.csv", "lines.csv"):
        shutil.copy(TOP / "examples" / name, folder / "town")
    make_store_of_folder(folder / "town", folder / "town.gpkg")
    shutil.copy(TOP / "examples/messages.tsv", folder / "feed.tsv")
    (folder / "text.txt").write_text("hello\n")
    (folder / "there.csv").write_text("mine\n")
    for file in STREETS.parent.glob("streets.*"):
        shutil.copy(file, folder)
    return folder


@pytest.fixture(autouse=True)
def in_folder(folder: Path, program: Program, monkeypatch: pytest.MonkeyPatch) -> Iterator[None]:
    """It is where they are typed, and stays as it is."""
    monkeypatch.setenv("OLR_PROGRAM", os.fspath(program.path))
    monkeypatch.chdir(folder)
    before = {file: file.stat().st_mtime_ns for file in folder.rglob("*")}
    yield
    assert {file: file.stat().st_mtime_ns for file in folder.rglob("*")} == before


def test_there_are_many() -> None:
    typed = [slip.typed for slip in (*WORDS, *FAILURES, *IN_PYTHON, *OF_OLR)]
    assert len(typed) >= 60 and len(set(typed)) == len(typed)


@pytest.mark.parametrize(
    ("status", "slip"),
    [(2, it) for it in WORDS] + [(1, it) for it in FAILURES],
    ids=lambda it: it.typed if isinstance(it, Slip) else "",
)
def test_words(status: int, slip: Slip, tools: Tools) -> None:
    ended = tools.run(*shlex.split(slip.typed))
    said = [it for it in ended.stderr.splitlines() if "can be reached by others" not in it]
    assert (ended.returncode, ended.stdout, len(said)) == (status, "", 1), ended.stderr
    assert said[0].startswith("olr-tools: ") and slip.named in said[0] and slip.remedy in said[0]


@pytest.mark.parametrize("slip", IN_PYTHON, ids=lambda it: it.typed if isinstance(it, Slip) else "")
def test_calls(slip: Slip) -> None:
    closed = olr.Map("town")
    closed.close()
    with olr.Map("town") as town:
        names: dict[str, Any] = {
            "CLOSED": closed,
            "REFERENCE": REFERENCE,
            "TABLE": pandas.DataFrame({"ref": [REFERENCE]}),
            "olr": olr,
            "town": town,
        }
        with pytest.raises((olr.ToolError, TypeError, ValueError, KeyError)) as raised:
            eval(slip.typed, names)
    said = str(raised.value.args[0])
    assert "\n" not in said and slip.named in said and slip.remedy in said, said


@pytest.mark.parametrize("slip", OF_OLR, ids=lambda it: it.typed if isinstance(it, Slip) else "")
def test_words_of_the_program(slip: Slip, program: Program) -> None:
    ended = program.run(*shlex.split(slip.typed))
    assert ended.returncode in (1, 2) and ended.stdout == ""
    assert slip.named in ended.stderr and slip.remedy in ended.stderr
