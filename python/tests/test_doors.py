"""One answer, whichever way it is asked for: commands, pages, addresses and Python say the same of the same reference, map and confidence."""

import csv
import json
import os
import pandas
import pytest
import random
from collections.abc import Iterator, Mapping, Sequence
from itertools import islice
from pathlib import Path
from typing import Any, NamedTuple, TypeGuard

import olr
from browser import Browser
from confidences import FEED as OF_FEED
from confidences import write_confidence
from conftest import TOP, Program, Tools
from feeds import data_of, point_along_line
from olr.comparing.columns import CHANGES
from olr.confidence.expected import Expected
from olr.confidence.confidence import Range
from olr.confidence.sentences import probability_text
from olr.matching.columns import ANSWERS
from olr.matching.tables import Columns
from olr.model.answers import AnswerOrFault, Places
from olr.model.fault import Fault
from olr.model.map_folder import read_map
from olr.model.profiles import FEED, PROFILES
from olr.model.questions import LIKELY, NUMBERS, What
from olr.regions.making import make_store_of_folder
from olr.tools import run
from olr.trials.changing import Spreads, changed_points
from olr.trials.encoder import text_of
from olr.trials.graph import Graph
from olr.trials.paths import Paths
from olr.trials.roads import Roads
from page_of_file import FilePage, write_page
from runs import answer_all
from servers import Server, path_of, serving
from vector_files import write_tempe

Row = Mapping[str, Any]
SHOWN = {"within": 90, "most": 3}
"""Others than the defaults: so each way has to pass them on."""
OPTIONS = [str(word) for name, value in SHOWN.items() for word in (f"--{name}", value)]
DIFFERS = Range(0.83, 0.62, 1.18)
DIFFER = "The maps seem to differ by 0.8 (0.6 to 1.2), 1 as another vendor's."
WEIGHTS = {"distance": 300_000, "direction": 5_000_000, "leg": 100_000, "behind": 16_000}
WEIGHTS |= {"turning_back": 48_000_000, "none": -120_000_000, "none_points": 12_000_000}
WEIGHTS |= {"none_lines": 4_000_000, "none_length": 200_000}
DRAWN, LINES = 100, 14
"""So many references of lines are drawn and matched, and so many are asked for in each way."""
EXAMPLES = TOP / "examples"
PAGES = 5
"""So many of them are viewed: each page asks anew."""
COLUMNS = [name for name in ANSWERS if name != "candidates"]
"""Those that all tables of answers have."""
TABLES: list[Columns[Any]] = [ANSWERS, CHANGES]
TEXTS = {"key", *(name for table in TABLES for name, it in table.items() if it.kind == "str")}
"""Columns of texts."""


class Case(NamedTuple):
    """What is asked, and what `olr-tools match` says of it."""

    folder: Path
    store: Path
    messages: Path
    confidence: Path
    texts: Mapping[str, str]
    """The references by their keys."""
    rows: Mapping[str, Sequence[Row]]
    """The rows of each, the likeliest place first."""

    def words(self, command: str, *words: object) -> list[str]:
        """The words of a command about all of them."""
        given = [command, self.messages, *words, *OPTIONS, "--confidence", self.confidence]
        return list(map(str, given))

    def asked(self, texts: Sequence[str]) -> "Case":
        """The same of these references."""
        keyed = {f"m{number}": text for number, text in enumerate(texts)}
        self.messages.write_text("".join(f"{key}\t{text}\n" for key, text in keyed.items()))
        out = self.messages.with_name("match.csv")
        words = ["--places", "--map", self.folder, "--out", out, "--force"]
        assert run(self.words("match", *words)) == 0
        return self._replace(texts=keyed, rows=by_keys(rows_of(out)))


@pytest.fixture(scope="module")
def case(program: Program, tmp_path_factory: pytest.TempPathFactory) -> Iterator[Case]:
    """References on the streets of Tempe that are far off, those of many that have most places and those that turn back; one to a point along
    a line, one that fits nowhere, and one that is none."""
    place = tmp_path_factory.mktemp("doors")
    folder, store = write_tempe(place / "map"), place / "map.gpkg"
    make_store_of_folder(folder, store)
    road_map = read_map(folder)
    paths = Paths(road_map).drawn(Graph(road_map, Roads(road_map)), random.Random(5))
    draws, spreads = random.Random(12), Spreads(30, 2, 15, 20, 10)
    drawn = [text_of(changed_points(it.points, spreads, draws)) for it in islice(paths, DRAWN)]
    sure = write_confidence(place / "sure.json", DIFFERS, OF_FEED, FEED, **WEIGHTS)
    made = Case(folder, store, place / "messages.tsv", sure, {}, {})
    with pytest.MonkeyPatch.context() as patch:
        patch.setenv("OLR_PROGRAM", os.fspath(program.path))
        found = made.asked(drawn).rows.values()
        several = sorted(found, key=lambda rows: -len(rows) - 5 * any(map(turns_back, rows)))
        lines = [drawn[int(rows[0]["record"]) - 1] for rows in several[:LINES]]
        point = next(point_along_line(text) for text in drawn if len(text) == 24)
        yield made.asked([*lines, point, "CwVGnSN2zhtnBgEB/2IjAQ==", "CwVGnSN2zhvHCgDX"])


def turns_back(row: Row) -> bool:
    """Whether a place turns back."""
    return bool(row["turns_back"])


@pytest.fixture(autouse=True)
def environment(program: Program, monkeypatch: pytest.MonkeyPatch) -> None:
    """The commands find the program by its environment."""
    monkeypatch.setenv("OLR_PROGRAM", os.fspath(program.path))


def rows_of(file: Path) -> list[Row]:
    """The rows of a file of CSV, with numbers as they are."""
    with file.open(encoding="utf-8", newline="") as stream:
        return [
            {name: value_of(name, text) for name, text in row.items()}
            for row in csv.DictReader(stream)
        ]


def value_of(name: str, text: str) -> Any:
    """What a cell has: a number, a text or nothing."""
    return text or None if name in TEXTS or not text else float(text)


def by_keys(rows: Sequence[Row]) -> dict[str, list[Row]]:
    """Rows by the keys of their references."""
    found: dict[str, list[Row]] = {}
    for row in rows:
        found.setdefault(row["key"], []).append(row)
    return found


def only(rows: Sequence[Row], names: Sequence[str] = COLUMNS) -> list[Row]:
    """Some columns of rows: without others all that `match` has but the number of candidates."""
    return [{name: row[name] for name in names} for row in rows]


def texts_of(rounded: float | None, before: str = "probability ") -> set[str]:
    """What a picture may say of a probability that a table rounds so: it has fewer digits."""
    if rounded is None:
        return {""}
    nearby = (round(1e6 * (rounded + off)) for off in (-0.0005, 0, 0.0005))
    return {f"{before}{probability_text(min(max(one, 0), 1_000_000))}" for one in nearby}


def assert_scene(scene: Any, rows: Sequence[Row]) -> None:
    """A picture shows the places of rows in their order, and says the same of them."""
    shown = [entry for entry in scene["entries"] if entry["members"] is not None]
    placed = [row for row in rows if row["likely"] is not None]
    assert scene["verdict"]["word"] == rows[0]["verdict"]
    for name in ("cursor", "total", "gap"):
        assert [entry[name] for entry in shown] == [row[name] for row in placed]
    for entry, row in zip(shown, placed):
        assert entry["title"] == f"Place {row['likely']:.0f}"
        assert entry["probability"] in texts_of(row["probability"])
        assert (entry["reasons"] or None) == row["reasons"]
        ends, *facts = entry["facts"]
        assert ends == f"points {row['ends_m']:.1f} m from the ends of their lines"
        assert ("turns back" in facts) == bool(row["turns_back"])
        rank = f"rank {row['rank']:.0f} by penalty"
        assert (rank in facts) == (row["rank"] != row["likely"])
    if not placed:
        assert scene["probability"] == []
    elif rows[0]["none_of_these"] is not None:
        none, *_, differ = scene["probability"]
        assert none.rstrip(".") in texts_of(rows[0]["none_of_these"], "None of these: probability ")
        assert differ == DIFFER
    else:
        assert scene["probability"] == [
            "Probabilities are of lines: a point along a line has none."
        ]


def test_what_match_says(case: Case) -> None:
    """The answers are of many kinds, or the other tests would show little."""
    firsts = [rows[0] for rows in case.rows.values()]
    assert list(case.rows) == list(case.texts)
    assert [row["verdict"] for row in firsts[-2:]] == ["none", "fault"]
    lines, point = firsts[:LINES], firsts[LINES]
    assert point["likely"] == 1 and point["probability"] is point["none_of_these"] is None
    assert len({row["probability"] for row in lines}) > LINES - 3
    assert {len(rows) for rows in case.rows.values()} == {1, 2, 3}
    assert any(rows[0]["rank"] != 1 for rows in case.rows.values())
    assert any(map(turns_back, firsts)) and not all(map(turns_back, lines))
    for rows in case.rows.values():
        assert [row["likely"] for row in rows] in ([1, 2, 3], [1, 2], [1], [None])
        # Such things are said once a reference.
        assert {row["none_of_these"] for row in rows[1:]} <= {None}
        told = [row["probability"] for row in rows if row["probability"] is not None]
        if told:
            assert sum(told) + rows[0]["none_of_these"] <= 1.002
            assert [rows[0][f"map_differs{end}"] for end in ("", "_low", "_high")] == list(DIFFERS)


def test_run_on_a_store(case: Case, tmp_path: Path, monkeypatch: pytest.MonkeyPatch) -> None:
    """Its rows are those of `match`, but for the number of candidates, which isn't asked for."""
    monkeypatch.setattr("olr.commands.run.answer_here", answer_all)
    rows = tmp_path / "rows.csv"
    words = ["--places", "--store", case.store, "--out", tmp_path / "out", "--geometries", rows]
    assert run(case.words("run", *words)) == 0
    found = by_keys(rows_of(rows))
    assert found.keys() == case.rows.keys()
    for key, expected in case.rows.items():
        assert only(found[key]) == only(expected)
        assert {row["candidates"] for row in found[key]} == {None}


def test_view(case: Case, tmp_path: Path) -> None:
    point = list(case.texts)[LINES]
    for key in [*list(case.texts)[:PAGES], point]:
        page = tmp_path / f"{key}.html"
        words = ["view", case.texts[key], "--map", case.folder, "--out", page, *OPTIONS]
        assert run([str(word) for word in [*words, "--confidence", case.confidence]]) == 0
        assert_scene(data_of(page), case.rows[key])


def test_report(case: Case, tmp_path: Path) -> None:
    """The rows of the table, and the scene of each."""
    page = tmp_path / "page.html"
    assert run(case.words("report", "--map", case.folder, "--out", page)) == 0
    data = data_of(page)
    assert {row["key"] for row in data["rows"]} == case.texts.keys()
    for row, scene in zip(data["rows"], data["scenes"], strict=True):
        found = case.rows[row["key"]]
        first = found[0]
        is_fault = first["verdict"] == "fault"
        assert row["verdict"] == ("refused" if is_fault else first["verdict"])
        for name in ("probability", "none_of_these", "total", "margin"):
            assert row.get(name) == first[name]
        assert ("turns_back" in row) == bool(first["turns_back"])
        if scene is not None:
            assert_scene(scene, found)
    expected = Expected()
    for rows in case.rows.values():
        if rows[0]["probability"] is not None:
            expected.add(rows[0]["probability"])
    assert expected.text().removeprefix("about") in data["summary"][0]
    assert "0.8 (0.6 to 1.2), 1 as another vendor's" in data["summary"][1]


def test_compare(case: Case, tmp_path: Path) -> None:
    """Of a map with itself: both rows are of the likeliest place."""
    out = tmp_path / "changes.csv"
    maps = ["--map", case.folder, "--with", case.store]
    assert run(case.words("compare", *maps, "--out", out)) == 0
    names = [name for name in CHANGES if name in ANSWERS]
    found = by_keys(rows_of(out))
    for key, expected in case.rows.items():
        assert only(found[key], names) == only([expected[0]], names) * 2
        assert {row["change"] for row in found[key]} <= {"same", "none", "refused"}


@pytest.fixture(scope="module")
def server(
    case: Case, program: Program, tmp_path_factory: pytest.TempPathFactory
) -> Iterator[Server]:
    """A server on the map."""
    log = tmp_path_factory.mktemp("server") / "log"
    with serving(program.path, case.folder, log, "--confidence", case.confidence) as started:
        yield started


def test_serve(case: Case, server: Server) -> None:
    """The rows of a body, the scene of each reference and its GeoJSON."""
    body = case.messages.read_text()
    query = "&".join(f"{name}={value}" for name, value in SHOWN.items())
    reply = server.get(f"/rows?{query}", "POST", body, Content_Type="text/plain")
    rows = {row["key"]: row for row in map(json.loads, reply.body.splitlines())}
    assert list(rows) == list(case.texts)
    names = [name for name in rows["m0"] if name in ANSWERS]
    assert {"verdict", "probability", "none_of_these", "total", "reasons"} < set(names)
    for key, expected in case.rows.items():
        assert only([rows[key]], names) == only(expected[:1], names)
        path = path_of("places", case.texts[key], profile=FEED, **SHOWN)
        reply = server.get(path, Accept="application/geo+json")
        scene = server.get(path_of("scene", case.texts[key], **SHOWN))
        if expected[0]["fault"]:
            assert reply.status == scene.status == 422
            continue
        features = json.loads(reply.body)["features"]
        properties = [feature["properties"] for feature in features]
        assert only(properties, list(ANSWERS)) == only(expected, list(ANSWERS))
        assert_scene(json.loads(scene.body), expected)


def test_python(case: Case, program: Program) -> None:
    """A table of answers."""
    texts = list(case.texts.values())
    sure = olr.Confidence.of_file(case.confidence)
    with olr.Map(case.folder, program=program.path, profile=FEED, confidence=sure) as town:
        settings: dict[str, Any] = {**LIKELY, **SHOWN, "shape": True}
        places = town.answers("places", texts, **settings)
        answers = [one for one in places if is_place(one)]
        counted = town.answers("candidates", texts)
        table = olr.to_geodataframe(
            answers,
            town,
            keys=list(case.texts),
            candidates=[one if isinstance(one, olr.Candidates) else None for one in counted],
        )
    found = table.drop(columns="geometry").astype(object).to_dict("records")
    rows = by_keys([{name: absent(value) for name, value in row.items()} for row in found])
    for key, expected in case.rows.items():
        assert only(rows[key], list(ANSWERS)) == only(expected, list(ANSWERS))


def test_locate(case: Case, program: Program) -> None:
    """The likeliest place of each reference of a table. Its verdict is that of the usual `within`, which no place of these depends on."""
    table = pandas.DataFrame({"text": case.texts.values()}, index=list(case.texts))
    with olr.Map(case.folder, program=program.path, profile=FEED) as town:
        found = olr.locate(table, "text", town, confidence=olr.Confidence.of_file(case.confidence))
    rows = found.drop(columns="geometry").astype(object).to_dict("index")
    names = [name for name in ANSWERS if name != "verdict"]
    assert list(rows) == list(case.rows)
    for key, expected in case.rows.items():
        row = {name: absent(value) for name, value in rows[key].items()}
        assert only([row], names) == only(expected[:1], names)


def is_place(answer: AnswerOrFault) -> TypeGuard[Places | Fault]:
    """Whether an answer is one to `places`."""
    return isinstance(answer, (Places, Fault))


def absent(value: Any) -> Any:
    """None for what pandas has in place of a value that isn't there."""
    return None if pandas.isna(value) else value


# ---- without options


class Usual(NamedTuple):
    """The messages of the examples, and what `olr-tools match` says of them, as a user would ask."""

    texts: Mapping[str, str]
    """The references by their keys."""
    rows: Mapping[What, Mapping[str, Sequence[Row]]]
    """The rows of each, of matchings and of places, the likeliest place first."""


@pytest.fixture(scope="module")
def usual(program: Program, tmp_path_factory: pytest.TempPathFactory) -> Usual:
    place, messages = tmp_path_factory.mktemp("usual"), EXAMPLES / "messages.tsv"
    words = ["match", messages, "--map", EXAMPLES, "--out"]
    with pytest.MonkeyPatch.context() as patch:
        patch.setenv("OLR_PROGRAM", os.fspath(program.path))
        assert run(list(map(str, [*words, place / "match.csv"]))) == 0
        assert run(list(map(str, [*words, place / "places.csv", "--places"]))) == 0
    texts = dict(line.split("\t") for line in messages.read_text().splitlines())
    return Usual(
        texts,
        {
            "match": by_keys(rows_of(place / "match.csv")),
            "places": by_keys(rows_of(place / "places.csv")),
        },
    )


@pytest.fixture(scope="module")
def usual_server(program: Program, tmp_path_factory: pytest.TempPathFactory) -> Iterator[Server]:
    with serving(program.path, EXAMPLES, tmp_path_factory.mktemp("server") / "log") as started:
        yield started


def table_rows(table: "pandas.DataFrame") -> list[Row]:
    """The rows of a table, without their geometries."""
    found = table.drop(columns="geometry").astype(object).to_dict("records")
    return [{name: absent(value) for name, value in row.items()} for row in found]


def scene_of_view(text: str, file: Path) -> Any:
    """What the page of `olr-tools view` shows of a reference."""
    assert run(["view", text, "--map", str(EXAMPLES), "--out", str(file), "--force"]) == 0
    return data_of(file)


def test_the_profiles_differ(usual: Usual, tmp_path: Path) -> None:
    """The messages tell which one is asked with, or the tests below would show little."""
    verdicts = []
    for profile in PROFILES:
        with olr.Map(EXAMPLES, profile=profile) as town:
            answers = town.answers("places", usual.texts.values())
            verdicts.append([getattr(one, "verdict", "fault") for one in answers])
    assert verdicts[0] != verdicts[1]
    assert [rows[0]["verdict"] for rows in usual.rows["places"].values()] in verdicts


def test_locate_by_default(usual: Usual) -> None:
    """All columns of each row, in the two ways to name a map."""
    table = pandas.DataFrame({"ref": usual.texts.values()}, index=list(usual.texts))
    firsts = [rows[0] for rows in usual.rows["places"].values()]
    assert list(usual.rows["places"]) == list(usual.texts)
    with olr.Map(EXAMPLES) as town:
        for found in (olr.locate(table, "ref", EXAMPLES), olr.locate(table, "ref", town)):
            assert only(table_rows(found), list(ANSWERS)) == only(firsts, list(ANSWERS))


@pytest.mark.parametrize("what", ["match", "places"])
def test_tables_by_default(what: What, usual: Usual) -> None:
    """All rows of a table of answers, and all pages of references."""
    texts = list(usual.texts.values())
    settings: Mapping[str, Any] = LIKELY if what == "places" else {}
    with olr.Map.of_folder(EXAMPLES) as town:
        table = olr.to_geodataframe(
            [one for one in town.answers(what, texts, shape=True, **settings) if is_located(one)],
            town,
            keys=list(usual.texts),
        )
    rows = by_keys(table_rows(table))
    for key, expected in usual.rows[what].items():
        assert only(rows[key]) == only(expected)


def is_located(answer: AnswerOrFault) -> "TypeGuard[olr.Page | Places | Fault]":
    """Whether an answer is one to `match` or `places`."""
    return isinstance(answer, (olr.Page, Places, Fault))


def said_of(scene: Any) -> Any:
    """What the picture says of the answer, and how it was asked."""
    totals = [entry["total"] for entry in scene["entries"]]
    return scene["command"], scene["verdict"], scene["probability"], totals


def test_pages_by_default(usual: Usual, tmp_path: Path) -> None:
    """The pages of `view` and `report`, and those of a notebook."""
    report, messages = tmp_path / "report.html", EXAMPLES / "messages.tsv"
    assert run(["report", str(messages), "--map", str(EXAMPLES), "--out", str(report)]) == 0
    found = data_of(report)
    for row, scene in zip(found["rows"], found["scenes"], strict=True):
        expected = usual.rows["places"][row["key"]][0]
        if expected["fault"]:
            continue
        assert row["verdict"] == expected["verdict"] == scene["verdict"]["word"]
        text = usual.texts[row["key"]]
        viewed = scene_of_view(text, tmp_path / "view.html")
        olr.view(text, EXAMPLES).save(tmp_path / "notebook.html")
        assert data_of(tmp_path / "notebook.html") == viewed
        assert said_of(scene) == said_of(viewed)


@pytest.mark.parametrize("what", NUMBERS)
def test_lines_by_default(
    what: What,
    usual: Usual,
    usual_server: Server,
    tmp_path: Path,
    monkeypatch: pytest.MonkeyPatch,
) -> None:
    """The answers of a run, of streams, of addresses and of a map, as the program writes them. A run asks for places in the likely order."""
    monkeypatch.setattr("olr.commands.run.answer_here", answer_all)
    lines = tmp_path / "lines.jsonl"
    words = ["--map", EXAMPLES, "--out", tmp_path / "run", "--join", lines]
    asked = [] if what == "match" else [f"--{what}"]
    messages = EXAMPLES / "messages.tsv"
    assert run(list(map(str, ["run", messages, *words, *asked]))) == 0
    settings = LIKELY if what == "places" else {}
    query = "&".join(f"{name}={str(value).lower()}" for name, value in settings.items())
    body = messages.read_text()
    reply = usual_server.get(f"/batch/{what}?{query}", "POST", body, Content_Type="text/plain")
    assert reply.body == lines.read_bytes()
    reply = usual_server.get(f"/batch/{what}", "POST", body, Content_Type="text/plain")
    with olr.Map(EXAMPLES) as town:
        for text, line in zip(usual.texts.values(), reply.body.splitlines(), strict=True):
            posted = usual_server.get(
                f"/{what}", "POST", json.dumps({"ref": text}), Content_Type="application/json"
            )
            one = usual_server.get(path_of(what, text))
            if json.loads(line)["fault"] is None:
                raw = town.raw_answer(what, text)
                assert line.startswith(b'{"answer":' + raw + b',"fault":null,')
                assert one.body == posted.body == raw
            else:
                assert one.status == posted.status == 422


def test_serve_by_default(usual: Usual, usual_server: Server, tmp_path: Path) -> None:
    """The rows of a body, GeoJSON, and the scene of each reference."""
    body = (EXAMPLES / "messages.tsv").read_text()
    reply = usual_server.get("/rows", "POST", body, Content_Type="text/plain")
    for row in map(json.loads, reply.body.splitlines()):
        names = [name for name in row if name in ANSWERS]
        assert only([row], names) == only(usual.rows["places"][row["key"]][:1], names)
    seq = {"Content_Type": "text/plain", "Accept": "application/geo+json-seq"}
    for what, rows in usual.rows.items():
        reply = usual_server.get(f"/batch/{what}", "POST", body, **seq)
        found = [json.loads(line)["properties"] for line in reply.body.split(b"\x1e")[1:]]
        assert only(found) == [row for some in rows.values() for row in only(some)]
        for key, text in usual.texts.items():
            one = usual_server.get(path_of(what, text), Accept="application/geo+json")
            if rows[key][0]["fault"]:
                continue
            properties = [it["properties"] for it in json.loads(one.body)["features"]]
            assert only(properties, list(ANSWERS)) == only(rows[key], list(ANSWERS))
    for key, text in usual.texts.items():
        scene = usual_server.get(path_of("scene", text))
        if not usual.rows["places"][key][0]["fault"]:
            assert json.loads(scene.body) == scene_of_view(text, tmp_path / "view.html")


def test_page_by_default(
    usual: Usual, usual_server: Server, browser: Browser, tools: Tools, tmp_path: Path
) -> None:
    """The page that answers by itself says what the server says."""
    page = FilePage(browser, write_page(tools, EXAMPLES, tmp_path / "page.html"))
    page.begin()
    whats = [*NUMBERS, "scene"]
    paths = [path_of(what, text) for what in whats for text in usual.texts.values()]
    for path, (status, text) in zip(paths, page.answers([path[1:] for path in paths])):
        reply = usual_server.get(path)
        assert status == reply.status
        if path.startswith("/scene") and status == 200:
            assert said_of(json.loads(text)) == said_of(json.loads(reply.body))
        elif status == 200:
            assert text.encode() == reply.body
    body = (EXAMPLES / "messages.tsv").read_text()
    rows = page.value(
        f"fetch('rows', {{ method: 'POST', body: {json.dumps(body)} }}).then(it => it.text())"
    )
    wanted = usual_server.get("/rows", "POST", body, Content_Type="text/plain").body
    assert list(map(json.loads, rows.splitlines())) == list(map(json.loads, wanted.splitlines()))
