"""Profiles in pages, in Python, and in the addresses of a server. No test depends on the numbers of a profile."""

import inspect
import json
import os
import pandas
import pytest
import shlex
from collections.abc import Callable, Iterator
from pathlib import Path
from typing import Any

import olr
from asking import as_json, said
from conftest import REFERENCE, Program
from feeds import data_of
from olr.model.profiles import DEFAULT_PROFILE, FEED, PROFILES, PROGRAM, tolerances_of
from olr.model.questions import LIST, TOLERANCES, all_words
from olr.regions.making import make_store_of_folder
from profiled import DEFAULTS, EXAMPLES, LACKING, MESSAGES, texts_of, tools, words_of
from servers import Server, expected_of, path_of, serving

CASES: list[tuple[dict[str, Any], dict[str, int]]] = [
    ({}, tolerances_of(DEFAULT_PROFILE)),
    ({"lowest": 0}, {**tolerances_of(DEFAULT_PROFILE), "lowest": 0}),
    ({"profile": PROGRAM}, DEFAULTS),
    ({"profile": FEED}, tolerances_of(FEED)),
    ({"profile": FEED, "lowest": 0}, {**tolerances_of(FEED), "lowest": 0}),
]
"""Options of a call or an address, and which tolerances hold then."""


@pytest.fixture(autouse=True)
def environment(program: Program, monkeypatch: pytest.MonkeyPatch) -> None:
    """The commands find the program by its environment."""
    monkeypatch.setenv("OLR_PROGRAM", os.fspath(program.path))


# ---- pages


def shown_by(program: Program, command: str, folder: Path, monkeypatch: pytest.MonkeyPatch) -> Any:
    """What the program says to the command of a page, beside the map."""
    monkeypatch.chdir(folder.parent)
    name, *words = shlex.split(command)
    assert name == "olr"
    return said(program, *words, "--format", "json")


@pytest.mark.parametrize(
    ("text", "words"),
    [
        (REFERENCE, []),
        (REFERENCE, ["--profile", PROGRAM]),
        (REFERENCE, ["--radius", 60, "--most", 3]),
        (LACKING, ["--profile", PROGRAM]),
    ],
)
def test_the_command_of_a_page(
    text: str,
    words: list[object],
    program: Program,
    tmp_path: Path,
    monkeypatch: pytest.MonkeyPatch,
) -> None:
    """It answers what the page shows."""
    page = tmp_path / "page.html"
    assert tools(["view", text, "--map", EXAMPLES, "--out", page, *words]) == 0
    scene = data_of(page)
    answer = shown_by(program, scene["command"], EXAMPLES, monkeypatch)
    if scene["why"] is None:
        totals = [entry["total"] for entry in scene["entries"] if entry["members"]]
        assert [place["matching"]["total"] for place in answer["places"]] == totals != []
    else:
        remedies = [f"--{it['option']} {it['value']}" for it in answer["remedies"]]
        assert [it.split(":")[0] for it in scene["why"]["remedies"]] == remedies != []
    report = tmp_path / "report.html"
    messages = tmp_path / "messages"
    messages.write_text(f"m1\t{text}\n")
    assert tools(["report", messages, "--map", EXAMPLES, "--out", report, *words]) == 0
    assert data_of(report)["scenes"][0]["command"] == scene["command"]


def test_stores_have_no_command(tmp_path: Path) -> None:
    """The program doesn't read them. Of two maps that are compared each has its own."""
    store, page = tmp_path / "town.gpkg", tmp_path / "page.html"
    make_store_of_folder(EXAMPLES, store)
    assert tools(["view", REFERENCE, "--map", store, "--out", page]) == 0
    assert data_of(page)["command"] == ""
    closed = tmp_path / "closed"
    closed.mkdir()
    for name in ("nodes.csv", "lines.csv"):
        lines = (EXAMPLES / name).read_text().splitlines(keepends=True)
        kept = [line for line in lines if not line.startswith(("501,", "502,"))]
        (closed / name).write_text("".join(kept))
    words = ["compare", MESSAGES, "--map", store, "--with", closed, "--out", tmp_path / "out.csv"]
    assert tools([*words, "--page", page, "--force"]) == 0
    rows = data_of(page)["rows"]
    assert rows
    for row in rows:
        (command,) = row["commands"]
        assert shlex.split(command)[3:5] == ["--map", str(closed)]


# ---- Python


def test_maps(program: Program) -> None:
    """Single tolerances win over those of a profile."""
    for given, tolerances in CASES:
        words = ["--map", EXAMPLES, *words_of(tolerances), "--format", "json"]
        for town in (olr.Map(EXAMPLES, **given), olr.Map.of_folder(EXAMPLES, **given)):
            with town:
                for text in (REFERENCE, LACKING):
                    found = as_json(town.places(text))
                    assert found == said(program, "places", text, *words)


def test_a_map_says_what_it_has() -> None:
    """A map of the same tolerances, as it is written in Python."""
    radius = tolerances_of(DEFAULT_PROFILE)["radius"]
    cases: list[tuple[dict[str, Any], dict[str, Any], str]] = [
        ({}, {"profile": DEFAULT_PROFILE}, ""),
        ({"radius": radius, "profile": DEFAULT_PROFILE}, {"profile": DEFAULT_PROFILE}, ""),
        (
            {"radius": radius + 1},
            {"profile": DEFAULT_PROFILE, "radius": radius + 1},
            f", radius={radius + 1}",
        ),
        ({"profile": PROGRAM}, {"profile": PROGRAM}, ", profile='program'"),
        (
            {"class_": 2, "profile": PROGRAM},
            {"profile": PROGRAM, "class_": 2},
            ", profile='program', class_=2",
        ),
    ]
    plain = repr(olr.Map("x")).removesuffix(")")
    for given, asked_with, text in cases:
        town = olr.Map("x", **given)
        assert (town.asked_with, repr(town)) == (asked_with, f"{plain}{text})")
        again = olr.Map("x", **town.asked_with)
        assert (again.tolerances, repr(again)) == (town.tolerances, repr(town))
    calls: list[Callable[..., object]] = [olr.Map, olr.Map.of_folder]
    for call in calls:
        assert inspect.signature(call).parameters["profile"].default == DEFAULT_PROFILE
        assert "`ValueError` for what is no profile" in (inspect.getdoc(olr.Map.__init__) or "")
        with pytest.raises(ValueError, match="'fed' is no profile: the profiles are program, feed"):
            call("x", profile="fed")


def test_tables_say_how_was_asked() -> None:
    """Those of one asking; of several, and where no answer knows, a table says nothing. That of the table that was given stays."""
    table = pandas.DataFrame({"ref": [REFERENCE, LACKING]})
    table.attrs["source"] = "mine"
    cases: list[dict[str, Any]] = [{}, {"profile": PROGRAM}, {"radius": 60, "class_": 2}]
    for given in cases:
        with olr.Map(EXAMPLES, **given) as town:
            asked_with: dict[str, Any] = {"asked_with": town.asked_with}
            assert olr.locate(table, "ref", town).attrs == {"source": "mine", **asked_with}
            assert olr.locate(pandas.Series([], dtype=object), map=town).attrs == asked_with
            pages = list(town.matches([REFERENCE, "none"], shape=True))
            assert olr.to_geodataframe(pages, town).attrs == asked_with
            assert olr.to_pieces(pages, town.network()).attrs == asked_with
            (page,) = town.pages(REFERENCE)
            after = town.match(REFERENCE, after=page.matchings[0].cursor)
            for one in (page, after, town.places(REFERENCE), town.why(REFERENCE)):
                assert one.asked_with == town.asked_with
    assert olr.locate(table, "ref", EXAMPLES).attrs["asked_with"] == {"profile": DEFAULT_PROFILE}
    with olr.Map(EXAMPLES) as town, olr.Map(EXAMPLES, radius=60) as other:
        both = [one.match(REFERENCE, shape=True) for one in (town, other)]
        assert olr.to_geodataframe(both).attrs == {}
        assert olr.to_geodataframe([olr.Fault("Empty")]).attrs == {}


def test_stores_take_a_profile(tmp_path: Path) -> None:
    store = tmp_path / "town.gpkg"
    make_store_of_folder(EXAMPLES, store)
    with olr.Map(EXAMPLES, profile=FEED) as folder, olr.Map(store, profile=FEED) as asked:
        for text in (REFERENCE, LACKING):
            assert asked.places(text) == folder.places(text)


# ---- the server


@pytest.fixture(scope="module")
def server(program: Program, tmp_path_factory: pytest.TempPathFactory) -> Iterator[Server]:
    """A server of the examples."""
    with serving(program.path, EXAMPLES, tmp_path_factory.mktemp("log") / "log") as found:
        yield found


@pytest.mark.parametrize("what", ["candidates", "match", "places", "why"])
def test_addresses(what: str, server: Server, program: Program) -> None:
    """Streams and single answers are the same."""
    for options, tolerances in CASES:
        texts = texts_of(MESSAGES)
        expected = expected_of(program, EXAMPLES, what, texts, *words_of(tolerances))
        for text, one in zip(texts, expected):
            assert one.agrees(server.get(path_of(what, text, **options)))
        query = path_of("", "x", **options).partition("?")[2].partition("ref=x")[2].lstrip("&")
        body = "".join(f"k\t{text}\n" for text in texts).encode()
        reply = server.get(f"/batch/{what}?{query}", "POST", body, Content_Type="text/plain")
        answers = [json.loads(line)["answer"] for line in reply.body.splitlines()]
        wanted = [None if one.fault else json.loads(one.answer) for one in expected]
        assert answers == wanted


def test_scenes(server: Server, program: Program, monkeypatch: pytest.MonkeyPatch) -> None:
    cases: list[tuple[dict[str, object], str]] = [
        ({}, DEFAULT_PROFILE),
        ({"profile": FEED}, FEED),
        ({"profile": PROGRAM}, PROGRAM),
    ]
    for options, profile in cases:
        scene = json.loads(server.get(path_of("scene", REFERENCE, **options)).body)
        words = ["--map", EXAMPLES, *words_of(tolerances_of(profile)), "--format", "json"]
        answer = said(program, "places", REFERENCE, *words)
        totals = [entry["total"] for entry in scene["entries"] if entry["members"]]
        assert [place["matching"]["total"] for place in answer["places"]] == totals
        words += all_words(LIST)
        answer = said(program, "places", REFERENCE, *words)
        assert shown_by(program, scene["command"], EXAMPLES, monkeypatch) == answer


def test_profiles_that_arent_there(server: Server) -> None:
    for path in ("match", "places", "why", "candidates", "scene"):
        status, title, detail = server.get(path_of(path, REFERENCE, profile="fed")).problem()
        assert (status, title) == (400, "BadRequest")
        assert detail.startswith("'fed' is no profile: the profiles are program, feed")
    refused = server.get("/batch/match?profile=", "POST", b"", Content_Type="text/plain")
    assert refused.problem()[0] == 400
    assert server.get(path_of("show", REFERENCE, profile=FEED)).problem()[0] == 400


def test_what_the_server_says_of_them(server: Server) -> None:
    """The document has each default; tolerances have none, or clients would send them."""
    paths = json.loads(server.get("/openapi.json").body)["paths"]
    for path, about in paths.items():
        address = about.get("get") or about["post"]
        schemas = {one["name"]: one["schema"] for one in address["parameters"]}
        if "radius" in schemas:
            assert schemas["profile"]["enum"] == list(PROFILES)
            assert schemas["profile"]["default"] == DEFAULT_PROFILE
            assert all("default" not in schemas[name] for name in TOLERANCES)
    page = server.get("/docs").body.decode()
    assert f"<td>profile</td><td>program, feed</td><td>{DEFAULT_PROFILE}</td>" in page
