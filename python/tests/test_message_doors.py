"""All that reads files of messages has one reader: packed files, JSON by a path, XML by names and tables, with references in base64 for URLs, are
the same two messages for each command, for the lists of `serve` and for Python."""

import csv
import fiona
import gzip
import io
import json
import os
import pytest
from collections.abc import Sequence
from pathlib import Path
from typing import Any, NamedTuple

import olr
from conftest import TOP, Program, Tools
from olr.messages.message import Reading
from olr.messages.reading import messages_in, messages_of
from olr.serving.listing import line_of
from olr.serving.lists import reading_of
from olr.serving.problems import Problem

EXAMPLES = TOP / "examples"
FAULTY = TOP / "python/tests/feeds_xml/openlr.xml"
"""Its fourth message has a fault of its own."""
ONE, TWO = "CwVF/yN2yRpnBAFUAAgbpwYBAf9kK0Fa", "CwVF+yN2yhpnBAFdAAsaFg=="
OF_URLS = "CwVF_yN2yRpnBAFUAAgbpwYBAf9kK0Fa", "CwVF-yN2yhpnBAFdAAsaFg"
KEYS = ["a", "b"]


class Feed(NamedTuple):
    """A file of messages, and the options that it needs."""

    file: Path
    options: dict[str, str]

    def words(self) -> list[str]:
        """The options of a command."""
        options = self.options | {"base64": "url"}
        return [word for name, value in options.items() for word in (f"--{name}", value)]


def write_layer(file: Path, rows: Sequence[tuple[str, str]]) -> None:
    """A GeoPackage, or a Shapefile by its name, with the columns `id` and `olr`."""
    schema = {"geometry": "Point", "properties": {"id": "str", "olr": "str"}}
    point = {"type": "Point", "coordinates": (0, 0)}
    driver = "ESRI Shapefile" if file.suffix == ".shp" else "GPKG"
    with fiona.open(file, "w", driver=driver, schema=schema, crs="EPSG:4326") as made:
        for row in rows:
            made.write({"geometry": point, "properties": dict(zip(("id", "olr"), row))})


def make(folder: Path, name: str) -> Feed:
    """A feed of both messages."""
    rows = list(zip(KEYS, OF_URLS))
    file = folder / name
    if name == "packed":
        file.write_bytes(gzip.compress("".join(f"{key}\t{ref}\n" for key, ref in rows).encode()))
        return Feed(file, {})
    if name == "json":
        results = [{"id": key, "location": {"olr": ref}} for key, ref in rows]
        file.write_text(json.dumps({"at": 7, "results": results}, indent=1))
        return Feed(file, {"ref": "results[].location.olr", "key": "id"})
    if name == "xml":
        jams = "".join(f'<jam name="{key}"><at>{ref}</at></jam>' for key, ref in rows)
        file.write_text(f"<feed>{jams}</feed>")
        return Feed(file, {"ref": "at", "key": "@name"})
    if name == "datex":
        element = '<situationRecord id="{}"><openlrBinary>{}</openlrBinary></situationRecord>'
        records = "".join(element.format(*row) for row in rows)
        file.write_text(f"<d2LogicalModel>{records}</d2LogicalModel>")
        return Feed(file, {})
    write_layer(file, rows)
    return Feed(file, {"ref": "olr", "key": "id", "format": "gpkg"})


@pytest.fixture(params=["packed", "json", "xml", "table"])
def feed(request: pytest.FixtureRequest, tmp_path: Path) -> Feed:
    return make(tmp_path, request.param)


@pytest.fixture(autouse=True)
def environment(program: Program, monkeypatch: pytest.MonkeyPatch) -> None:
    """The commands find the program by the environment."""
    monkeypatch.setenv("OLR_PROGRAM", os.fspath(program.path))


def answered(tools: Tools, *words: object) -> str:
    """What a command prints that succeeds, and says nothing else."""
    ended = tools.run(*words)
    assert (ended.returncode, ended.stderr) == (0, "")
    return ended.stdout


def rows_of(file: Path) -> list[dict[str, str]]:
    with file.open(newline="") as stream:
        return list(csv.DictReader(stream))


def test_match(tools: Tools, feed: Feed, tmp_path: Path) -> None:
    out = tmp_path / "rows.csv"
    words = ["match", feed.file, "--map", EXAMPLES, "--page", 1, "--out", out]
    answered(tools, *words, *feed.words())
    found = [(row["record"], row["key"], row["verdict"]) for row in rows_of(out)]
    assert found == [("1", "a", "match"), ("2", "b", "match")]


def test_view(tools: Tools, feed: Feed, tmp_path: Path) -> None:
    page = tmp_path / "page.html"
    words = ["view", "b", "--messages", feed.file, "--map", EXAMPLES, "--out", page]
    answered(tools, *words, *feed.words())
    assert TWO in page.read_text(encoding="utf-8")


def test_report(tools: Tools, feed: Feed, tmp_path: Path) -> None:
    words = ["report", feed.file, "--map", EXAMPLES, "--out", tmp_path / "page.html"]
    assert "2 rows of 2 references" in answered(tools, *words, *feed.words())


def test_compare(tools: Tools, feed: Feed, tmp_path: Path) -> None:
    out = tmp_path / "rows.csv"
    words = ["compare", feed.file, "--map", EXAMPLES, "--with", EXAMPLES, "--out", out]
    answered(tools, *words, *feed.words())
    assert [(row["key"], row["change"]) for row in rows_of(out)][::2] == [
        ("a", "same"),
        ("b", "same"),
    ]


def test_run(tools: Tools, feed: Feed, here: None, tmp_path: Path) -> None:
    """A run goes on with the same base64 alone."""
    out, joined = tmp_path / "run", tmp_path / "joined"
    words = ["run", feed.file, "--map", EXAMPLES, "--out", out, *feed.words()]
    answered(tools, *words, "--join", joined)
    lines = [json.loads(line) for line in joined.read_text().splitlines()]
    assert [(one["key"], one["fault"]) for one in lines] == [("a", None), ("b", None)]
    words[-1:] = ["plain", "--resume"]
    if "format" not in feed.options:
        words += ["--format", {"packed": "tab"}.get(feed.file.name, feed.file.name)]
    ended = tools.run(*words)
    said = f"olr-tools: {out} holds a run with other base64: name another folder\n"
    assert (ended.returncode, ended.stderr) == (1, said)


def test_a_run_of_a_table_that_was_changed(tools: Tools, here: None, tmp_path: Path) -> None:
    """The references of a Shapefile are in its table, the `.dbf`: a run doesn't go on with another one."""
    file, out = tmp_path / "feed.shp", tmp_path / "run"
    words = ["run", file, "--map", EXAMPLES, "--out", out, "--ref", "olr", "--key", "id"]
    write_layer(file, list(zip(KEYS, (ONE, TWO))))
    shapes = file.read_bytes()
    answered(tools, *words)
    answered(tools, *words, "--resume")
    write_layer(file, list(zip(KEYS, (TWO, ONE))))
    file.write_bytes(shapes)
    ended = tools.run(*words, "--resume")
    said = f"olr-tools: {out} holds a run with other messages: name another folder\n"
    assert (ended.returncode, ended.stderr) == (1, said)


def test_calibrate(tools: Tools, feed: Feed, tmp_path: Path) -> None:
    """It reads the references, which are too few here."""
    words = ["calibrate", "--for", feed.file, "--map", EXAMPLES, "--out", tmp_path / "made.json"]
    ended = tools.run(*words, *feed.words())
    assert ended.returncode == 1 and "and the feed has 2: " in ended.stderr


def test_lists_of_a_server(feed: Feed) -> None:
    """As the process reads them that reads lists. They can't be tables."""
    options = feed.options | {"base64": "url"}
    if "format" in options:
        with pytest.raises(Problem):
            reading_of(options)
        return
    with feed.file.open("rb") as stream:
        found = [json.loads(line_of(it)) for it in messages_in(stream, reading_of(options), "x")]
    assert found == [
        {"record": number, "key": key, "reference": ref, "fault": None}
        for number, key, ref in zip((1, 2), KEYS, (ONE, TWO))
    ]
    with pytest.raises(Problem, match="base64 is one of plain, url"):
        reading_of({"base64": "URL"})


def test_python(feed: Feed) -> None:
    options: Any = feed.options | {"base64": "url"}
    assert list(olr.read_messages(feed.file, **options)) == list(zip(KEYS, (ONE, TWO)))
    found = [message[:4] for message in olr.read_feed(feed.file, **options)]
    assert found == [(1, "a", ONE, None), (2, "b", TWO, None)]


@pytest.mark.parametrize("name", ["packed", "json", "xml", "datex", "table"])
def test_the_option_is_named(name: str, tmp_path: Path) -> None:
    """Where the references would be refused because they are in base64 for URLs."""
    feed = make(tmp_path, name)
    options: Any = {key: value for key, value in feed.options.items() if key != "format"}
    found = list(olr.read_messages(feed.file, **options, base64="url"))
    assert found == list(zip(KEYS, (ONE, TWO)))
    with pytest.raises(olr.ToolError) as raised:
        list(olr.read_messages(feed.file, **options))
    begin = f"{feed.file} has base64 for URLs in its first 2 records, as '{OF_URLS[0]}'"
    kind = {"packed": "tab", "datex": "xml", "table": "gpkg"}.get(name, name)
    assert str(raised.value) == f"{begin}: say --base64 url, or --format {kind} if this is meant"


@pytest.mark.parametrize(
    ("given", "plain"),
    [
        (OF_URLS[0], ONE),
        (OF_URLS[1], TWO),
        (TWO, TWO),
        (f" {OF_URLS[1]}==", TWO),
        # One sign of two, and signs of nothing, are still no base64.
        (f"{OF_URLS[1]}=", f"{TWO[:-1]}"),
        ("==", "=="),
        ("", ""),
    ],
)
def test_as_plain_base64(given: str, plain: str) -> None:
    stream = io.BytesIO(f"k\t{given}\n".encode())
    (message,) = messages_in(stream, Reading("tab", base64="url"), "x")
    assert message.reference == plain


def test_where_references_for_urls_are(tmp_path: Path, capsys: pytest.CaptureFixture[str]) -> None:
    """A file of JSON is looked through for these, and a table without a header is one."""
    feed = make(tmp_path, "json")
    found = [it.reference for it in messages_of(feed.file, Reading(base64="url"))]
    assert found == [ONE, TWO]
    assert "read with --ref 'results[].location.olr'" in capsys.readouterr().err
    with feed.file.open("rb") as stream:
        found = [it.reference for it in messages_in(stream, Reading(base64="url"), "x")]
    assert found == [ONE, TWO]
    feed.file.write_text(f"a,{OF_URLS[1]}\n")
    with pytest.raises(olr.ToolError, match="has no header"):
        list(messages_of(feed.file, Reading(base64="url")))


def test_element_form_stays(tmp_path: Path) -> None:
    """What is written here in binary, beside references in base64 for URLs."""
    file = tmp_path / "feed.xml"
    file.write_text(FAULTY.read_text().replace(ONE, OF_URLS[0]))
    plain = list(messages_of(FAULTY, Reading()))
    of_urls = list(messages_of(file, Reading(base64="url")))
    assert plain == of_urls and plain[0].reference.startswith("C") and plain[1].reference == ONE


def test_a_fault_of_its_own() -> None:
    """Python, and the process that reads a list, say it of the message. Its number counts too."""
    found = list(olr.read_feed(FAULTY))
    assert [(it.record, it.key, it.fault) for it in found] == [
        (1, "first", None),
        (2, "second", None),
        (3, "third", None),
        (4, "fourth", "PoiWithAccess"),
    ]
    assert [json.loads(line_of(it))["fault"] for it in found] == [None, None, None, "PoiWithAccess"]
    assert found[3].answer(olr.Fault("Empty")).text == "PoiWithAccess"
    assert found[2].answer(olr.Fault("Empty")).text == "Empty"


def test_what_is_kept_in_python(tmp_path: Path) -> None:
    file = tmp_path / "feed.json"
    file.write_text(json.dumps([{"ref": ONE, "key": 7, "delay": 300, "road": "A1"}]))
    (one,) = olr.read_feed(file, keep="delay")
    assert (one.key, dict(one.kept)) == ("7", {"delay": 300})
    (one,) = olr.read_feed(file, keep=["road", "delay"])
    assert dict(one.kept) == {"road": "A1", "delay": 300}
    (one,) = olr.read_feed(file, keep="all")
    assert dict(one.kept) == {"delay": 300, "road": "A1"}
    (one,) = olr.read_feed(file)
    assert dict(one.kept) == {}


@pytest.mark.parametrize("read", [olr.read_messages, olr.read_feed])
def test_a_file_is_looked_for_at_once_and_read_later(read: Any, tmp_path: Path) -> None:
    """A record at a time, from when the first one is asked for."""
    file = tmp_path / "feed.jsonl"
    with pytest.raises(olr.ToolError, match="feed.jsonl can't be read"):
        read(file)
    file.write_text("")
    messages = read(file)
    file.write_text(f'{{"ref": "{ONE}"}}\n' * 5000 + "damaged\n")
    assert ONE in next(messages)
    found = []
    with pytest.raises(olr.ToolError, match="5001"):
        found.extend(messages)
    assert len(found) == 4999


def test_words_that_python_doesnt_know() -> None:
    for options, said in (
        ({"format": "yaml"}, "'yaml' is no format: give tab, csv, "),
        ({"base64": "URL"}, "'URL' is no base64: give plain, url"),
        ({"base64": None}, "None is no base64: give plain, url"),
    ):
        for read in (olr.read_messages, olr.read_feed):
            with pytest.raises(ValueError, match=said):
                list(read(FAULTY, **options))  # type: ignore[operator]
