"""Questions to `olr-tools serve` as JSON: of one reference those of the URL, of a few those of `olr batch`, and of both as GeoJSON."""

import json
import pytest
from collections.abc import Iterator
from pathlib import Path
from typing import Any

import olr
from asking import all_options, draw_map, draw_references
from conftest import REFERENCE, TOP, Program, Tools
from olr.asking.records import Answered
from olr.errors import ProgramEnded
from olr.model.questions import NUMBERS, OPTIONS, What
from olr.serving.feature_texts import MOST_ANSWER, lines_of
from olr.serving.features import OF_LINES
from olr.serving.limits import MIB
from olr.serving.posted import MOST_BYTES, MOST_REFS, posted_of, records_of
from olr.serving.problems import Problem
from olr.serving.rows import lots_of
from servers import Reply, Server, expected_of, path_of, serving

ODD = ["", "a\tb", "x\ny", "\ud800", "ä", "CwVG", f" {REFERENCE}\n", "A" * 400]
"""Texts that are no references, but one."""


@pytest.fixture(scope="module")
def drawn(tmp_path_factory: pytest.TempPathFactory) -> Path:
    """A drawn map."""
    return draw_map(tmp_path_factory.mktemp("drawn"))


@pytest.fixture(scope="module")
def texts(drawn: Path) -> list[str]:
    """References on it, of which every ninth is damaged."""
    return draw_references(drawn, 60)


@pytest.fixture(scope="module")
def server(
    program: Program, drawn: Path, tmp_path_factory: pytest.TempPathFactory
) -> Iterator[Server]:
    """A server on it."""
    with serving(program.path, drawn, tmp_path_factory.mktemp("log") / "log") as found:
        yield found


def posted(server: Server, path: str, body: Any, **headers: str) -> Reply:
    """The answer to JSON."""
    data = body if isinstance(body, bytes) else json.dumps(body).encode()
    return server.get(path, "POST", data, **{"Content_Type": "application/json", **headers})


def features_in(body: bytes) -> list[Any]:
    """The texts of a sequence, each between its mark and a line end."""
    begin, *texts = body.decode().split("\x1e")
    assert not begin and all(text.endswith("\n") and text.count("\n") == 1 for text in texts)
    return [json.loads(text) for text in texts]


@pytest.mark.parametrize("what", NUMBERS)
def test_one_reference(what: str, server: Server, texts: list[str]) -> None:
    """Status and bytes are those of the URL with the same options."""
    options: dict[str, Any] = {"radius": 60, "profile": "feed"}
    for text in [text for text in texts[:6] if text.isascii()] + ODD[4:]:
        for accept in ("*/*", "application/geo+json"):
            fields = {"Accept": accept, "X_Request_Id": "x"}
            expected = server.get(path_of(what, text, **options), **fields)
            found = posted(server, f"/{what}", {"ref": text, **options}, **fields)
            assert (found.status, found.body) == (expected.status, expected.body), text
            assert found.headers["content-type"] == expected.headers["content-type"]


@pytest.mark.parametrize("what", NUMBERS)
def test_options_that_are_no_numbers(
    what: What, server: Server, program: Program, drawn: Path, texts: list[str]
) -> None:
    """Each address of a question that has them gives the program's answer, and others refuse them."""
    options = all_options(what)
    in_url = {name: str(value).lower() for name, value in options.items()}
    body = "".join(f"{text}\n" for text in texts[:9]).encode()
    query = "&".join(f"{name}={value}" for name, value in in_url.items())
    lines = server.get(f"/batch/{what}?{query}", "POST", body, Content_Type="text/plain").body
    with olr.Map(drawn, program=program.path) as town:
        for text, line in zip(texts, map(json.loads, lines.splitlines())):
            if line["fault"] is not None:
                continue
            raw = town.raw_answer(what, text, **options)
            assert line["answer"] == json.loads(raw)
            assert server.get(path_of(what, text, **in_url)).body == raw
            assert posted(server, f"/{what}", {"ref": text, **options}).body == raw
    for path in (what, "scene"):
        for name, option in OPTIONS.items():
            status, title, detail = server.get(path_of(path, texts[0], **{name: "x"})).problem()
            assert (status, title) == (400, "BadRequest")
            values = " or ".join(option.words or ("false", "true"))
            is_there = path == what and name in options
            said = f"{name} is {values}" if is_there else f"'{name}' is no option of /"
            assert detail.startswith(said)
    reply = server.get("/rows?order=total", "POST", b"x\n", Content_Type="text/plain")
    assert reply.problem()[0] == 400


def test_a_page_behind_a_cursor(server: Server, texts: list[str]) -> None:
    pages = (json.loads(server.get(path_of("match", text, page=1)).body) for text in texts[1:9])
    text, cursor = next(
        (text, page["next"]) for text, page in zip(texts[1:9], pages) if page.get("next")
    )
    expected = server.get(path_of("match", text, after=cursor, page=2))
    assert expected.status == 200
    found = posted(server, "/match", {"ref": text, "after": cursor, "page": 2})
    assert found.body == expected.body


@pytest.mark.parametrize("what", NUMBERS)
def test_a_few_references(
    what: str, server: Server, program: Program, drawn: Path, texts: list[str]
) -> None:
    """The lines of `olr batch`, without keys."""
    some = texts[:25] + ODD
    reply = posted(server, f"/{what}", {"refs": some, "radius": 70})
    assert (reply.status, reply.headers["content-type"]) == (200, "application/x-ndjson")
    lines = [json.loads(line) for line in reply.body.splitlines()]
    assert [line["record"] for line in lines] == list(range(1, len(some) + 1))
    assert {line["key"] for line in lines} == {None}
    whole = [text for text in texts[:25] if "\n" not in text]
    expected = expected_of(program, drawn, what, whole, "--radius", 70)
    for one, line, raw in zip(expected, lines, reply.body.splitlines()):
        assert one.fault == line["fault"] and raw.startswith(b'{"answer":' + one.answer)
    faults = [line["fault"] for line in lines[len(texts[:25]) :]]
    assert faults[:6] == ["Empty", *["NotBase64"] * 4, "BadLength 3"]
    assert faults[6] is None and faults[7] == "TooLong"
    alone = posted(server, f"/{what}", some[:3])
    assert [json.loads(line)["record"] for line in alone.body.splitlines()] == [1, 2, 3]
    assert posted(server, f"/{what}", []).body == b""


@pytest.mark.parametrize("what", ["match", "places"])
def test_lines_of_geojson(
    what: str, server: Server, drawn: Path, texts: list[str], tools: Tools, tmp_path: Path
) -> None:
    """Those of the file that `match` writes, but for the number of candidates; of a stream and of a few references."""
    some = [text for text in texts[:40] if text.isascii()]
    records, out = tmp_path / "records.tsv", tmp_path / "rows.geojson"
    records.write_text("".join(f"k{number}\t{text}\n" for number, text in enumerate(some)))
    words: list[object] = ["--places"] if what == "places" else []
    ended = tools.run("match", records, "--map", drawn, *words, "--profile", "feed", "--out", out)
    assert ended.returncode == 0, ended.stderr
    expected = json.loads(out.read_text())["features"]
    for feature in expected:
        feature["properties"]["candidates"] = None
    headers = {"Content_Type": "text/plain", "Accept": OF_LINES}
    path = f"/batch/{what}?profile=feed"
    streamed = server.get(path, "POST", records.read_bytes(), **headers)
    assert (streamed.status, streamed.headers["content-type"]) == (200, OF_LINES)
    assert features_in(streamed.body) == expected
    few = posted(server, f"/{what}", {"refs": some, "profile": "feed"}, Accept=OF_LINES)
    for feature in expected:
        feature["properties"]["key"] = None
    assert few.headers["content-type"] == OF_LINES and features_in(few.body) == expected


@pytest.mark.parametrize("what", ["candidates", "why"])
def test_answers_that_are_no_features(what: str, server: Server, texts: list[str]) -> None:
    reply = posted(server, f"/{what}", texts[:2], Accept=OF_LINES)
    assert reply.headers["content-type"] == "application/x-ndjson"


@pytest.mark.parametrize(
    "body, said",
    [
        (b"", "the body isn't JSON"),
        (b"{", "the body isn't JSON"),
        (b"\xff", "the body isn't JSON"),
        (b"[" * 60_000, "the body isn't JSON"),
        (b"1" * 5000, "the body isn't JSON"),
        ("x", "the body is an object"),
        ({}, "ref is missing"),
        ({"ref": 5}, "'ref' is a text"),
        ({"ref": None}, "'ref' is a text"),
        ({"ref": "x", "radius": "60"}, "'radius' is a whole number"),
        ({"ref": "x", "radius": 6.0}, "'radius' is a whole number"),
        ({"ref": "x", "radius": True}, "'radius' is a whole number"),
        ({"ref": "x", "detail": 1}, "'detail' is true or false"),
        ({"ref": "x", "radius": -1}, "radius is a whole number of metres"),
        ({"ref": "x", "radus": 60}, "'radus' is no option of /match: it has ref, after"),
        ({"ref": "x", "look": 60}, "'look' is no option of /match"),
        (b'{"ref":"x","radius":1,"radius":2}', "'radius' is given twice"),
        ({"ref": "x", "refs": []}, "ref and after are of one reference"),
        ({"refs": [], "after": "0:1"}, "ref and after are of one reference"),
        ({"refs": "x"}, "refs is a list of texts"),
        ({"refs": ["x", 5]}, "refs is a list of texts"),
        ([{"ref": "x"}], "refs is a list of texts"),
        ({"refs": ["x"], "radius": 0}, "radius is a whole number of metres"),
        ({"refs": ["x"], "key": 1}, "'key' is no option"),
    ],
)
def test_bodies_that_arent_understood(body: Any, said: str, server: Server) -> None:
    status, title, detail = posted(server, "/match", body).problem()
    assert (status, title) == (400, "BadRequest") and detail.startswith(said)


def test_limits_of_bodies(server: Server) -> None:
    """The most that a body has, and one more."""
    most = posted(server, "/candidates", ["CwVG"] * MOST_REFS)
    assert most.status == 200 and most.body.count(b"\n") == MOST_REFS
    assert posted(server, "/candidates", ["CwVG"] * (MOST_REFS + 1)).problem()[0] == 400
    body = json.dumps({"ref": REFERENCE}).encode()
    assert posted(server, "/show", body).problem()[0] == 405
    assert posted(server, "/candidates", body.ljust(MOST_BYTES)).status in (200, 422)
    assert posted(server, "/candidates", body.ljust(MOST_BYTES + 1)).problem()[0] == 413


def test_other_types_and_sites(server: Server) -> None:
    """A form of a page of another site can't ask either."""
    body = {"ref": REFERENCE}
    assert posted(server, "/match", body, Content_Type="text/plain").problem()[0] == 415
    assert posted(server, "/match?radius=5", body).problem()[0] == 400
    assert posted(server, "/match", body, Origin="https://evil.example").problem()[0] == 403
    with_charset = posted(server, "/match", body, Content_Type="application/json; charset=utf-8")
    assert with_charset.status != 415


def test_a_body_that_breaks_off() -> None:
    for body in (b'{"ref":"x"}', b'["x"]'):
        assert posted_of(body)
        for end in range(len(body)):
            with pytest.raises(Problem):
                posted_of(body[:end])


def answered(*sizes: int) -> list[Answered]:
    """Answers of so many bytes."""
    records = records_of(["x"] * len(sizes))
    return [Answered(record, b"x" * size, None) for record, size in zip(records, sizes)]


@pytest.mark.parametrize(
    "sizes, lots",
    [
        ([], []),
        ([1, 1], [2]),
        ([MIB, 1], [1, 1]),
        ([1, MIB - 1, 1], [2, 1]),
        ([5 * MIB, 5 * MIB], [1, 1]),
        ([1, 5 * MIB, 1], [1, 1, 1]),
    ],
)
def test_lots(sizes: list[int], lots: list[int]) -> None:
    """Of a MiB of answers, unless one alone has more."""
    found = list(lots_of(answered(*sizes)))
    assert [len(lot) for lot in found] == lots
    assert [one for lot in found for one in lot] == answered(*sizes)


def test_an_answer_that_is_too_large_for_features() -> None:
    """It isn't read: its record has a fault."""
    network = olr.Network.read(TOP / "examples")
    (feature,) = features_in(lines_of(answered(MOST_ANSWER + 1), network, "match"))
    assert feature["properties"]["fault"] == "AnswerTooLarge" and feature["geometry"] is None
    with pytest.raises(ProgramEnded, match="what is no answer"):
        lines_of(answered(MOST_ANSWER), network, "match")
