"""`--keep` of `match`, `report` and `compare`: members of records of each format, as columns of each kind of file and of pages."""

import csv
import fiona
import io
import json
import os
import pytest
import sqlite3
from collections.abc import Callable
from pathlib import Path
from typing import Any

from browser import Browser
from conftest import REFERENCE, TOP, Program, Tools
from feeds import MARKUP, data_of
from olr.matching.columns import ANSWERS
from test_messages_tables import layer, workbook

EXAMPLES = TOP / "examples"
SECOND = "CwVF+yN2yhpnBAFdAAsaFg=="
OURS = ["record", "key", *ANSWERS]
Kept = list[tuple[str, str, list[Any]]]
"""Columns that are kept: the name and the type in a GeoPackage, and the value of each of the two messages."""


@pytest.fixture(autouse=True)
def environment(program: Program, monkeypatch: pytest.MonkeyPatch) -> None:
    """The command finds the program by its environment."""
    monkeypatch.setenv("OLR_PROGRAM", os.fspath(program.path))


class Feed:
    """A folder with files of two messages, and what becomes of them."""

    def __init__(self, folder: Path, tools: Tools) -> None:
        self.folder, self._tools = folder, tools

    def match(self, messages: object, *words: object, out: str = "out.gpkg") -> Path:
        """The rows of `match --places`."""
        file = self.folder / out
        given = ["match", messages, "--map", EXAMPLES, "--places", "--most", 1, "--out", file]
        ended = self._tools.run(*given, *words)
        assert (ended.returncode, ended.stderr) == (0, "")
        return file

    def refused(self, command: str, *words: object) -> str:
        """What is said where nothing is written, on one line."""
        before = sorted(self.folder.iterdir())
        given = [command, *words, "--map", EXAMPLES, "--out", self.folder / "none.gpkg"]
        ended = self._tools.run(*given)
        assert ended.returncode in (1, 2) and sorted(self.folder.iterdir()) == before
        return ended.stderr.splitlines()[-1]


@pytest.fixture
def feed(tmp_path: Path, tools: Tools) -> Feed:
    return Feed(tmp_path, tools)


def kept(file: Path, layer: str = "places") -> Kept:
    """The columns of a GeoPackage behind ours."""
    with sqlite3.connect(file) as base:
        table = base.execute(f"SELECT name, type FROM pragma_table_info('{layer}')").fetchall()
        rows = base.execute(f"SELECT * FROM {layer} ORDER BY record").fetchall()
    assert [name for name, _ in table[2 : 2 + len(OURS)]] == OURS
    return [
        (name, kind, [row[at] for row in rows])
        for at, (name, kind) in enumerate(table)
        if at >= 2 + len(OURS)
    ]


OBJECTS: list[dict[str, Any]] = [
    {"key": "m1", "ref": REFERENCE, "n": 50, "x": 2, "is": True, "l": [1, "ä"], "mixed": 1},
    {"key": "m2", "ref": SECOND, "x": 2.5, "is": False, "mixed": "a", "more": {"b": None}},
]
OF_JSON: Kept = [
    ("n", "INTEGER", [50, None]),
    ("x", "REAL", [2.0, 2.5]),
    ("is", "BOOLEAN", [1, 0]),
    ("l", "TEXT", ['[1,"ä"]', None]),
    ("mixed", "TEXT", ["1", "a"]),
    ("more", "TEXT", [None, '{"b":null}']),
]
FEATURES = [
    {"type": "Feature", "id": one["key"], "properties": {**one, "key": None}} for one in OBJECTS
]
XML = f"""<feed><jam id="m1" n="1"><x>2</x><at olr="{REFERENCE}"/><x>3</x></jam>
<jam id="m2"><at olr="{SECOND}"/><is>true</is></jam></feed>"""
FIELDS = {"ref": "str", "key": "str", "n": "int", "x": "float", "at": "date"}
ROWS = [(REFERENCE, "m1", 50, 2.0, "2026-01-02"), (SECOND, "m2", None, 2.5, None)]
OF_TABLE: Kept = [
    ("n", "INTEGER", [50, None]),
    ("x", "REAL", [2.0, 2.5]),
    ("at", "TEXT", ["2026-01-02", None]),
]


def written(text: str) -> Callable[[Path], Path]:
    """What writes a text to a file."""

    def write(folder: Path) -> Path:
        (folder / "messages").write_text(text, encoding="utf-8")
        return folder / "messages"

    return write


def made_sheet(folder: Path) -> Path:
    rows: list[list[Any]] = [[*FIELDS, "is"], [*ROWS[0], True], [*ROWS[1], "no"]]
    return workbook(folder / "messages", rows)


FORMATS: dict[str, tuple[Callable[[Path], Path], list[str], Kept]] = {
    "csv": (
        written(f"key;n;ref;empty\nm1;50;{REFERENCE};\nm2;;{SECOND};\n"),
        [],
        [("n", "TEXT", ["50", ""]), ("empty", "TEXT", ["", ""])],
    ),
    "jsonl": (written("".join(json.dumps(one) + "\n" for one in OBJECTS)), [], OF_JSON),
    "jsonseq": (written("".join(f"\x1e{json.dumps(one)}\n" for one in OBJECTS)), [], OF_JSON),
    "json": (
        written(json.dumps({"a": {"b": OBJECTS}}, indent=1)),
        ["--ref", "a.b[].ref", "--key", "key"],
        OF_JSON,
    ),
    "geojson": (
        written(json.dumps({"type": "FeatureCollection", "features": FEATURES})),
        [],
        OF_JSON,
    ),
    "xml": (
        written(XML),
        ["--ref", "@olr"],
        [("x", "TEXT", ["2; 3", None]), ("is", "TEXT", [None, "true"])],
    ),
    "gpkg": (
        lambda folder: layer(folder / "messages.gpkg", "GPKG", "a", FIELDS, ROWS),
        [],
        OF_TABLE,
    ),
    "shp": (
        lambda folder: layer(folder / "messages.shp", "ESRI Shapefile", "messages", FIELDS, ROWS),
        [],
        OF_TABLE,
    ),
    "xlsx": (made_sheet, [], [*OF_TABLE, ("is", "TEXT", ["true", "no"])]),
}


@pytest.mark.parametrize("format", FORMATS)
def test_each_format(format: str, feed: Feed) -> None:
    """All members, and those that are named, in their order; a name that no record has is a slip of the pen."""
    make, words, expected = FORMATS[format]
    messages = make(feed.folder)
    assert kept(feed.match(messages, *words, "--keep", "all")) == expected
    names = [name for name, _, _ in expected[::-1]]
    named = [word for name in [*names, names[0]] for word in ("--keep", name)]
    assert kept(feed.match(messages, *words, *named, "--force")) == expected[::-1]
    said = feed.refused("match", messages, *words, "--keep", names[0], "--keep", "sped")
    assert said.startswith(f"olr-tools: {messages} has no ") and "sped" in said and "--keep" in said


NAMES: dict[str, Any] = {
    "Total": 7,
    "FID": 1,
    "key": "own",
    'a"b,c;\'d"': "x",
    "line\nend": "l1\rl2",
    "road": '"A 1", A 2',
    "ROAD": [1.5, {"b": [True, None]}],
}
COLUMNS = ["kept_Total", "kept_FID", "kept_key", 'a"b,c;\'d"', "line end", "road", "ROAD_2"]


def test_each_kind_of_file(feed: Feed) -> None:
    """Names that others have, and any letters in names and texts: other programs read what was there. Pieces have no more columns."""
    messages = feed.folder / "messages.json"
    records: list[dict[str, Any]] = [{"ref": REFERENCE} | NAMES | {"is": True}, {"ref": SECOND}]
    messages.write_text(json.dumps({"r": records, "id": 1}))
    words = ["--ref", "r[].ref", *(word for name in NAMES for word in ("--keep", name))]
    words += ["--keep", "is", "--key", "ref"]
    pieces = feed.folder / "pieces.csv"
    outs = [feed.match(messages, *words, out=f"out.{kind}") for kind in ("gpkg", "geojson")]
    outs.append(feed.match(messages, *words, "--pieces", pieces, out="out.csv"))
    of_json = list(NAMES.values())
    of_gpkg = [*of_json[:-1], '[1.5,{"b":[true,null]}]']
    columns = kept(outs[0])
    assert [name for name, _, _ in columns] == [*COLUMNS, "is"]
    assert [values for _, _, values in columns] == [[one, None] for one in [*of_gpkg, 1]]
    with fiona.open(outs[0]) as read:
        found = [list(one["properties"].values())[-8:] for one in read]
    assert found == [[*of_gpkg, True], [None] * 8]
    features = json.loads(outs[1].read_text(encoding="utf-8"))["features"]
    rows = [dict(zip([*COLUMNS, "is"], values)) for values in ([*of_json, True], [None] * 8)]
    assert [dict(list(one["properties"].items())[-8:]) for one in features] == rows
    with outs[2].open(encoding="utf-8", newline="") as stream:
        table = list(csv.reader(stream))
    assert table[0] == [*OURS, *COLUMNS, "is"]
    assert [row[-8:] for row in table[1:]] == [[*map(str, of_gpkg), "true"], [""] * 8]
    assert pieces.read_text().splitlines()[0].endswith(",from_m,to_m")


@pytest.mark.parametrize("kind", ["gpkg", "csv"])
def test_rows_are_added_to_the_same_columns(kind: str, feed: Feed) -> None:
    messages = feed.folder / "messages.jsonl"
    messages.write_text("".join(json.dumps(one | {"a,b": 1}) + "\n" for one in OBJECTS))
    words = ["--keep", "x", "--keep", "a,b"]
    out = feed.match(messages, *words, out=f"out.{kind}")
    before = out.read_bytes()
    cases: list[tuple[list[str], str]] = [
        ([], "has x, has a,b"),
        (words[:2], "has a,b"),
        ([*words, "--keep", "n"], "lacks n"),
        ([*words[2:], *words[:2]], "has the same in another order"),
    ]
    for others, differs in cases:
        given = [messages, "--map", EXAMPLES, "--places", "--out", out, "--append"]
        ended = Tools().run("match", *given, *others)
        assert ended.returncode == 1 and ended.stderr.count("\n") == 1
        assert f"{out} has other columns, so rows can't be added: its " in ended.stderr
        assert kind == "csv" or f"its layer places {differs}: name another file" in ended.stderr
        assert out.read_bytes() == before
    feed.match(messages, *words, "--append", out=f"out.{kind}")
    if kind == "gpkg":
        assert kept(out) == [("x", "REAL", [2.0, 2.0, 2.5, 2.5]), ("a,b", "INTEGER", [1] * 4)]
    else:
        rows = list(csv.reader(out.open()))
        assert [row[-2:] for row in rows] == [["x", "a,b"], *[["2.0", "1"], ["2.5", "1"]] * 2]


def test_standard_input(
    feed: Feed, monkeypatch: pytest.MonkeyPatch, tmp_path_factory: pytest.TempPathFactory
) -> None:
    """It is copied, and nothing of the copy is left."""
    scratch = tmp_path_factory.mktemp("scratch")
    monkeypatch.setattr("tempfile.tempdir", os.fspath(scratch))
    text = "".join(json.dumps(one) + "\n" for one in OBJECTS)
    for is_right in (True, False):
        monkeypatch.setattr("sys.stdin", io.TextIOWrapper(io.BytesIO(text.encode())))
        if is_right:
            assert kept(feed.match("-", "--keep", "all")) == OF_JSON
        else:
            said = feed.refused("match", "-", "--keep", "sped")
            assert said.startswith("olr-tools: standard input has no sped in any record: ")
        assert not list(scratch.iterdir())


def test_reasons(feed: Feed) -> None:
    """`match --why`, of whose columns one has the name of a member."""
    messages = feed.folder / "messages.csv"
    messages.write_text(f"ref,at,rank\n{REFERENCE},A 1,2\nbad,,\n")
    out = feed.folder / "out.csv"
    words = ["match", messages, "--map", EXAMPLES, "--why", "--keep", "all", "--out", out]
    assert Tools().run(*words).returncode == 0
    rows = list(csv.DictReader(out.open()))
    assert [(row["verdict"], row["kept_at"], row["rank"]) for row in rows] == [
        ("match", "A 1", "2"),
        ("fault", "", ""),
    ]


def test_no_messages(feed: Feed) -> None:
    """A file without any has the columns that were named, as texts."""
    messages = feed.folder / "messages.jsonl"
    messages.write_text("")
    assert kept(feed.match(messages, "--keep", "b", "--keep", "a")) == [
        ("b", "TEXT", []),
        ("a", "TEXT", []),
    ]
    assert kept(feed.match(messages, "--keep", "all", "--force")) == []


def test_words_that_are_refused(feed: Feed) -> None:
    lines = EXAMPLES / "messages.tsv"
    of_compare: list[object] = ["--with", EXAMPLES]
    for command, more in (("match", of_compare[:0]), ("compare", of_compare)):
        said = feed.refused(command, lines, *more, "--keep", "speed")
        leave = "leave out --ref, --key and --keep"
        assert said == f"olr-tools: {lines} has no names of columns or members: {leave}"
    said = feed.refused("match", lines, "--keep", "all", "--keep", "speed")
    leave = "leave out the others (see olr-tools match --help)"
    assert said == f"olr-tools: --keep all keeps all: {leave}"


def test_compare(feed: Feed, browser: Browser, tools: Tools) -> None:
    """Both rows of a message have what is kept, and so has its row of the page."""
    messages = feed.folder / "messages.jsonl"
    moved, rest = {"ref": REFERENCE, "speed": 50, "side": MARKUP, "l": [1]}, {"ref": SECOND}
    messages.write_text("".join(json.dumps(one) + "\n" for one in (moved, rest)))
    lacking = feed.folder / "lacking"
    lacking.mkdir()
    (lacking / "nodes.csv").write_text("id,lon,lat\n1,10,10\n2,10,20\n")
    (lacking / "lines.csv").write_text((EXAMPLES / "lines.csv").read_text().splitlines()[0] + "\n")
    out, page = feed.folder / "out.csv", feed.folder / "page.html"
    words = ["--map", EXAMPLES, "--with", lacking, "--out", out, "--page", page]
    ended = tools.run("compare", messages, *words, "--keep", "all")
    assert (ended.returncode, ended.stderr) == (0, "")
    rows = list(csv.DictReader(out.open()))
    assert [(row["record"], row["speed"], row["kept_side"], row["l"]) for row in rows] == [
        *[("1", "50", MARKUP, "[1]")] * 2,
        *[("2", "", "", "")] * 2,
    ]
    assert_cells(browser, page, {"speed": ["50", ""], "kept_side": [MARKUP, ""], "l": ["[1]", ""]})


def test_report(feed: Feed, browser: Browser, tools: Tools) -> None:
    """A column of the table for each member. A long text is cut."""
    messages, page = feed.folder / "messages.jsonl", feed.folder / "page.html"
    one = {"ref": REFERENCE, MARKUP: MARKUP, "total": 2.5, "is": False, "text": "x" * 501}
    messages.write_text("".join(json.dumps(it) + "\n" for it in (one, {"ref": "bad", "total": 1})))
    words = ["report", messages, "--map", EXAMPLES, "--out", page, "--keep", "all"]
    ended = tools.run(*words)
    assert (ended.returncode, ended.stderr) == (0, "")
    data = data_of(page)
    assert data["kept"] == [MARKUP, "kept_total", "is", "text"]
    assert [row["kept"] for row in data["rows"]] == [
        [None, 1.0, None, None],
        [MARKUP, 2.5, "false", "x" * 500 + ".."],
    ]
    assert_cells(browser, page, {MARKUP: ["", MARKUP], "kept_total": ["1", "2.5"]})


def assert_cells(browser: Browser, page: Path, expected: dict[str, list[str]]) -> None:
    """The columns of the table of a page, by their headings: texts, whatever is in them."""
    browser.open(page)
    assert browser.value("document.body.dataset.ready") == "yes"
    assert not browser.value("document.getElementById('evil')")
    heads, rows = browser.value(
        "[[...document.querySelectorAll('.sorted thead th')].map(it => it.textContent),"
        " [...document.querySelectorAll('.sorted tbody tr')].map(it => [...it.cells].map(one => one.textContent))]"
    )
    for name, texts in expected.items():
        assert [row[heads.index(name)] for row in rows] == texts
    assert (browser.errors, browser.loaded) == ([], [])
