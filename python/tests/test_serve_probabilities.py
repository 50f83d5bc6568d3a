"""The probabilities of `olr-tools serve` are those of `olr-tools match --places`, whichever address is asked."""

import csv
import json
import pytest
from collections.abc import Iterator
from pathlib import Path
from typing import Any, NamedTuple
from urllib.parse import quote

from browser import Browser
from conftest import Program, Tools, by_default
from olr.confidence.sentences import probability_text
from olr.regions.making import make_store_of_folder
from page_of_server import MESSAGES, NONE_OF_THESE, PROBABILITY, REASONS, TOTAL, VERDICT, Page
from servers import Server, path_of, serving

TEXTS = dict(line.split("\t") for line in MESSAGES.splitlines())
OF_PLACES = ("likely", "rank", "probability", "none_of_these", "reasons", "turns_back", "cursor")
"""Columns of docs/COLUMNS.md."""


class Known(NamedTuple):
    """A map that is served, and what `olr-tools match` says of it."""

    server: Server
    rows: dict[str, list[dict[str, Any]]]
    """The rows of each message, with numbers as they are."""
    is_store: bool


def rows_of_match(tools: Tools, on: Path, folder: Path, *words: object) -> Any:
    """The rows of the messages of the examples, by their keys."""
    (folder / "messages.tsv").write_text(MESSAGES)
    out = folder / "rows.csv"
    given = [folder / "messages.tsv", "--map", on, "--places", "--out", out]
    ended = tools.run("match", *given, *words)
    assert (ended.returncode, ended.stderr) == (0, "")
    rows: dict[str, list[dict[str, Any]]] = {}
    with out.open(encoding="utf-8", newline="") as stream:
        for row in csv.DictReader(stream):
            texts = ("key", "verdict", "reasons", "fault", "cursor")
            values = {
                name: text if name in texts else number_of(text) for name, text in row.items()
            }
            rows.setdefault(row["key"], []).append(values)
    return rows


def number_of(text: str) -> Any | None:
    """What a cell has: a number, a text or nothing."""
    try:
        return json.loads(text) if text else None
    except ValueError:
        return text


def texts_of(rounded: float) -> set[str]:
    """What a picture may say of a probability that `match` rounds so: it has fewer digits."""
    nearby = (round(1e6 * (rounded + off)) for off in (-0.0005, 0, 0.0005))
    return {f"probability {probability_text(min(max(one, 0), 1_000_000))}" for one in nearby}


@pytest.fixture(scope="module", params=["folder", "store"])
def known(
    request: pytest.FixtureRequest,
    program: Program,
    tools: Tools,
    folder: Path,
    tmp_path_factory: pytest.TempPathFactory,
) -> Iterator[Known]:
    """The map of the examples without its bans, as a folder and as a store."""
    scratch = tmp_path_factory.mktemp("known")
    on = folder
    if request.param == "store":
        on = scratch / "map.gpkg"
        make_store_of_folder(folder, on)
    rows = rows_of_match(tools, on, scratch)
    with serving(program.path, on, scratch / "log") as server:
        yield Known(server, rows, request.param == "store")


def test_what_match_says(known: Known) -> None:
    """The references say something: some place has a probability of its own, and one reference has two."""
    first = [known.rows[key][0] for key in TEXTS]
    assert [row["probability"] is None for row in first] == [False] * 4 + [True]
    assert len({row["probability"] for row in first}) > 2
    assert [row["likely"] for row in known.rows["m3"]] == [1, 2]


@pytest.mark.parametrize("key", TEXTS)
def test_each_address_says_the_same(known: Known, browser: Browser, key: str) -> None:
    """GeoJSON, the rows of a list, the scene and the page itself, which is opened once for a store: it shows what the server says."""
    expected = known.rows[key]
    first = expected[0]
    lines = known.server.get("/rows", "POST", f"{key}\t{TEXTS[key]}\n", Content_Type="text/plain")
    row = json.loads(lines.body)
    names = ("key", "verdict", "probability", "none_of_these", "total", "margin", "turns_back")
    assert {name: row[name] for name in names} == {name: first[name] for name in names}
    assert (row["reasons"] or "", row["fault"] or "") == (first["reasons"], first["fault"])
    path = path_of("places", TEXTS[key], profile="feed")
    reply = known.server.get(path, Accept="application/geo+json")
    scene = known.server.get(path_of("scene", TEXTS[key]))
    if first["fault"]:
        assert reply.status == scene.status == 422
        return
    features = [feature["properties"] for feature in json.loads(reply.body)["features"]]
    wanted = [{name: one[name] for name in OF_PLACES} for one in expected]
    assert [{name: one[name] for name in OF_PLACES} for one in features] == wanted
    drawn = json.loads(scene.body)
    entries = [one for one in drawn["entries"] if one["members"] is not None]
    assert [one["cursor"] for one in entries] == [one["cursor"] for one in expected]
    assert [one["reasons"] for one in entries] == [one["reasons"] for one in expected]
    texts = [one["probability"] for one in entries]
    assert all(text in texts_of(one["probability"]) for text, one in zip(texts, expected))
    none = drawn["probability"][0]
    assert none in {f"None of these: {text}." for text in texts_of(first["none_of_these"])}
    if known.is_store and key != "m3":
        return
    page = Page(browser, known.server)
    page.open(f"?ref={quote(TEXTS[key])}")
    shown = page.value("[...document.querySelectorAll('.entry .gap')].map(e => e.textContent)")
    assert shown[: len(texts)] == texts
    assert none in page.text("#probability")
    page.read(f"{key}\t{TEXTS[key]}")
    assert page.column(PROBABILITY) == [f"{first['probability']:.3f}"]
    assert page.column(NONE_OF_THESE) == [f"{first['none_of_these']:.3f}"]
    assert page.column(VERDICT) + page.column(TOTAL) == [first["verdict"], str(first["total"])]
    assert page.column(REASONS) == [first["reasons"]]
    assert page.is_quiet()


def test_other_tolerances(known: Known, tools: Tools, folder: Path, tmp_path: Path) -> None:
    """There is no probability then, and it is said why; the order is the likely one all the same."""
    rows = rows_of_match(tools, folder, tmp_path, "--radius", 80)
    said = (
        "robabilities: radius is 80, not 75: make a file with your options by olr-tools calibrate"
    )
    body = MESSAGES.encode()
    reply = known.server.get("/rows?radius=80", "POST", body, Content_Type="text/plain")
    for line, (key, expected) in zip(reply.body.splitlines(), rows.items(), strict=True):
        row = json.loads(line)
        assert (row["key"], row["total"]) == (key, expected[0]["total"])
        assert row["probability"] is row["none_of_these"] is None
        assert row["no_probabilities"] == (None if expected[0]["fault"] else f"no p{said}")
        if expected[0]["fault"]:
            continue
        path = path_of("places", TEXTS[key], profile="feed", radius=80)
        found = json.loads(known.server.get(path, Accept="application/geo+json").body)["features"]
        assert [one["properties"]["rank"] for one in found] == [one["rank"] for one in expected]
        assert {one["properties"]["probability"] for one in found} == {None}
        scene = json.loads(known.server.get(path_of("scene", TEXTS[key], radius=80)).body)
        assert scene["probability"] == [f"No p{said}."]
        assert {one["probability"] for one in scene["entries"]} == {""}


def test_what_is_shown(known: Known, tools: Tools, folder: Path, tmp_path: Path) -> None:
    """`within` and `most` are of what is shown, and change no probability."""
    for option, value in (("most", 1), ("within", 0)):
        rows = rows_of_match(tools, folder, tmp_path, f"--{option}", value)["m3"]
        (tmp_path / "rows.csv").unlink()
        path = path_of("places", TEXTS["m3"], profile="feed", **{option: value})
        found = json.loads(known.server.get(path, Accept="application/geo+json").body)["features"]
        shown = [{name: one["properties"][name] for name in OF_PLACES} for one in found]
        assert shown == [{name: one[name] for name in OF_PLACES} for one in rows]
        assert shown[0]["none_of_these"] == known.rows["m3"][0]["none_of_these"]
        scene = json.loads(known.server.get(path_of("scene", TEXTS["m3"], **{option: value})).body)
        entries = [one for one in scene["entries"] if one["members"] is not None]
        assert [one["cursor"] for one in entries] == [one["cursor"] for one in rows]
        assert all(one["probability"] for one in entries)
        body = f"m3\t{TEXTS['m3']}"
        reply = known.server.get(f"/rows?{option}={value}", "POST", body, Content_Type="text/plain")
        assert json.loads(reply.body)["probability"] == rows[0]["probability"]


def test_plain_json_is_that_of_the_program(known: Known, program: Program, folder: Path) -> None:
    """Byte for byte, in the program's order."""
    words = by_default("places", TEXTS["m3"], "--map", folder, "--format", "json")
    reply = known.server.get(path_of("places", TEXTS["m3"]))
    assert reply.body.decode() + "\n" == program.run(*words).stdout
