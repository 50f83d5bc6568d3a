"""Answers of `olr-tools serve` are those of the program, byte for byte."""

import asyncio
import json
import pytest
import re
import socket
import subprocess
from collections.abc import Iterator
from jinja2 import UndefinedError
from pathlib import Path
from typing import Any
from urllib.parse import quote

import olr
from asking import draw_map, draw_references
from conftest import REFERENCE, TOP, Program, Tools, by_default
from olr.model.fault_table import ROWS
from olr.model.questions import NUMBERS, TOLERANCES
from olr.pages.view.scene import scene_of
from olr.serving import problems
from olr.serving.pages import described
from servers import Server, ask_all, expected_of, path_of, reply_on, serving

REFERENCES = 2000
LINES = {"Content_Type": "text/plain"}


@pytest.fixture(scope="module")
def drawn(tmp_path_factory: pytest.TempPathFactory) -> Path:
    """A drawn map."""
    return draw_map(tmp_path_factory.mktemp("drawn"))


@pytest.fixture(scope="module")
def texts(drawn: Path) -> list[str]:
    """References on it, of which every ninth is damaged."""
    return draw_references(drawn, REFERENCES)


@pytest.fixture(scope="module")
def server(
    program: Program, drawn: Path, tmp_path_factory: pytest.TempPathFactory
) -> Iterator[Server]:
    """A server on it."""
    with serving(program.path, drawn, tmp_path_factory.mktemp("log") / "log") as found:
        yield found


@pytest.fixture(scope="module")
def of_examples(program: Program, tmp_path_factory: pytest.TempPathFactory) -> Iterator[Server]:
    """A server on the map of the examples, which is small."""
    log = tmp_path_factory.mktemp("log") / "log"
    with serving(program.path, TOP / "examples", log) as found:
        yield found


@pytest.mark.parametrize("what", NUMBERS)
def test_one_at_a_time(
    what: str, server: Server, program: Program, drawn: Path, texts: list[str]
) -> None:
    connection = server.connection()
    some = texts[:150]
    for text, expected in zip(some, expected_of(program, drawn, what, some), strict=True):
        reply = reply_on(connection, path_of(what, text))
        assert expected.agrees(reply), (text, reply)
        if expected.fault is None:
            assert reply.headers["content-type"] == "application/json"
        else:
            _, title, detail = reply.problem()
            fault = olr.Fault(expected.fault)
            assert title == fault.name and detail == f"{fault.text}: {fault.meaning}"
    connection.close()


def test_many_at_once(server: Server, program: Program, drawn: Path, texts: list[str]) -> None:
    """Of three kinds, which two processes answer by turns."""
    kinds: list[tuple[str, dict[str, int]]] = [
        ("match", {}),
        ("places", {"radius": 60, "look": 500, "most": 3}),
        ("match", {"page": 2, "lowest": 1, "slack": 1000}),
    ]
    paths, answers = [], []
    for number, (what, options) in enumerate(kinds):
        chosen = texts[number * 60 : number * 60 + 60] if number else texts[:800]
        words = [word for name, value in options.items() for word in (f"--{name}", value)]
        answers += expected_of(program, drawn, what, chosen, *words)
        paths += [path_of(what, text, **options) for text in chosen]
    replies = asyncio.run(ask_all(server, paths))
    assert len(replies) == len(answers)
    assert all(expected.agrees(reply) for expected, reply in zip(answers, replies))
    assert len(server.programs()) <= 8


@pytest.mark.parametrize("what", NUMBERS)
def test_streamed(
    what: str, server: Server, program: Program, drawn: Path, texts: list[str]
) -> None:
    records = "".join(f"kéy {number}\t{text}\n" for number, text in enumerate(texts[:500])).encode()
    records += b"\n\r\n" + REFERENCE.encode() + b"\r\n" + b"k\t" + b"x" * 70_000 + b"\n"
    records += b"\xff\t" + REFERENCE.encode() + b"\n\tlast"
    words = by_default(program.path, "batch", what, "--map", drawn, "--radius", 50)
    expected = subprocess.run(words, input=records, capture_output=True, check=True).stdout
    reply = server.get(f"/batch/{what}?radius=50", "POST", records, **LINES)
    assert reply.status == 200 and reply.headers["content-type"] == "application/x-ndjson"
    assert reply.body == expected and expected.count(b"\n") == 504
    pieces = (records[at : at + 1000] for at in range(0, len(records), 1000))
    assert server.get(f"/batch/{what}?radius=50", "POST", pieces, **LINES).body == expected


def test_a_stream_answers_as_it_goes(server: Server) -> None:
    """Each record is sent when the one before it was answered."""
    head = f"POST /batch/match HTTP/1.1\r\nHost: localhost:{server.port}\r\nContent-Type: text/plain\r\n"
    with socket.create_connection(("127.0.0.1", server.port), timeout=600) as connection:
        stream = connection.makefile("rb")
        connection.sendall(f"{head}Transfer-Encoding: chunked\r\n\r\n".encode())
        for number in range(1, 4):
            record = f"{number}\tCwVG\n".encode()
            connection.sendall(b"%x\r\n%b\r\n" % (len(record), record))
            while b'"record":%d}' % number not in (line := stream.readline()):
                assert line
        connection.sendall(b"0\r\n\r\n")
        assert stream.readline() == b"\r\n" and stream.readline() == b"0\r\n"


def test_an_empty_body(server: Server) -> None:
    reply = server.get("/batch/match", "POST", b"", **LINES)
    assert (reply.status, reply.body) == (200, b"")


def test_what_a_reference_says(server: Server, program: Program, texts: list[str]) -> None:
    for text in texts[:30]:
        ended = program.run("show", "--format", "json", "--", text)
        reply = server.get(path_of("show", text))
        if ended.returncode == 0:
            assert (reply.status, reply.body.decode() + "\n") == (200, ended.stdout)
        else:
            assert reply.problem()[2].startswith(ended.stderr.removeprefix("olr: ").strip())


def test_pages_behind_cursors(
    server: Server, program: Program, drawn: Path, texts: list[str]
) -> None:
    """Until there is no more. No cursor has the mark of the map that the program's own has."""
    text = next(
        text
        for text in texts[:200]
        if text == text.strip()
        and text.isascii()
        and _next(server.get(path_of("match", text, page=2)).body)
    )
    pages = 1
    after = _next(server.get(path_of("match", text, page=2)).body)
    while after is not None and pages < 6:
        words = by_default("match", text, "--map", drawn, "--page", 2, "--after", after)
        page = server.get(path_of("match", text, page=2, after=after)).body
        printed = program.run(*words, "--format", "json").stdout
        assert page.decode() + "\n" == re.sub("@[0-9a-f]{64}", "", printed)
        after, pages = _next(page), pages + 1
    assert pages > 2
    assert server.get(path_of("match", text, after="x")).problem()[:2] == (422, "BadCursor")
    assert server.get(path_of("match", text, after="7:9.9")).problem()[:2] == (422, "CursorNotHere")
    assert server.get(path_of("places", text, after="0:1")).problem()[0] == 400


def _next(page: bytes) -> str | None:
    found: str | None = json.loads(page).get("next")
    return found


@pytest.mark.parametrize("what", ["match", "places"])
@pytest.mark.parametrize("on", ["drawn", "examples"])
def test_geojson(
    what: str,
    on: str,
    drawn: Path,
    server: Server,
    of_examples: Server,
    texts: list[str],
    tools: Tools,
    tmp_path: Path,
) -> None:
    """The features are those of the file that `olr-tools match` writes, but for the columns of the file."""
    folder = drawn if on == "drawn" else TOP / "examples"
    lines = (folder / "messages.tsv").read_text().splitlines() if on == "examples" else texts[:60]
    some = [line.rpartition("\t")[2] for line in lines]
    records, out = tmp_path / "records.tsv", tmp_path / "rows.geojson"
    records.write_text("".join(f"{number}\t{text.strip()}\n" for number, text in enumerate(some)))
    words: list[object] = ["--places"] if what == "places" else []
    words += ["--radius", 80]
    ended = tools.run("match", records, "--map", folder, *words, "--out", out)
    assert ended.returncode == 0, ended.stderr
    expected: dict[str, list[object]] = {}
    for feature in json.loads(out.read_text())["features"]:
        key = feature["properties"].pop("key")
        del feature["properties"]["record"]
        if feature["properties"]["fault"] is None:
            expected.setdefault(key, []).append(feature)
    assert len(expected) >= (4 if on == "examples" else 40)
    asked = server if on == "drawn" else of_examples
    for key, features in expected.items():
        path = path_of(what, some[int(key)], radius=80)
        reply = asked.get(path, Accept="application/geo+json")
        assert reply.headers["content-type"] == "application/geo+json"
        assert reply.headers["vary"] == "Accept, Accept-Encoding"
        assert json.loads(reply.body)["features"] == features
    refused = asked.get(path_of(what, "CwVG"), Accept="application/geo+json")
    assert refused.problem()[:2] == (422, "BadLength")


@pytest.fixture(scope="module")
def roomy(
    program: Program, drawn: Path, tmp_path_factory: pytest.TempPathFactory
) -> Iterator[Server]:
    """A server on the same map with a process for each question that a scene asks: none reads the map again."""
    log = tmp_path_factory.mktemp("log") / "log"
    with serving(program.path, drawn, log, "--workers", 8) as found:
        yield found


@pytest.mark.parametrize("tolerances", [{}, {"radius": 70}])
def test_scenes(tolerances: dict[str, Any], roomy: Server, drawn: Path, texts: list[str]) -> None:
    """They are those that `olr-tools view` draws."""
    probable = 0
    with olr.Map(drawn, profile="feed", **tolerances) as asked:
        for text in [text for text in texts[:12] if text.isascii()]:
            reply = roomy.get(path_of("scene", text, **tolerances, most=3))
            try:
                expected = scene_of(text, asked, most=3)
            except olr.Fault as fault:
                assert reply.problem()[1] == fault.name
            else:
                found = json.loads(reply.body)
                assert found.pop("tiles") is None
                assert found.pop("command").startswith("olr ") and expected.pop("command") == ""
                if tolerances and expected["entries"]:
                    (why,) = found["probability"]
                    assert why.startswith("No probabilities: radius is 70, not ")
                assert found == json.loads(json.dumps(expected))
                probable += any(entry["probability"] for entry in found["entries"])
    assert (probable > 4) == (not tolerances)


@pytest.mark.parametrize(
    "query, said",
    [
        ("", "ref is missing"),
        ("radius=5", "ref is missing"),
        ("ref=x&ref=y", "'ref' is given twice"),
        ("ref=x&radius=5&r%61dius=5", "'radius' is given twice"),
        ("ref=x&radius=0", "radius is a whole number of metres from 1 to 1000"),
        ("ref=x&radius=1001", "radius is a whole number"),
        ("ref=x&radius=", "radius is a whole number"),
        ("ref=x&radius=+5", "radius is a whole number"),
        ("ref=x&radius=5.0", "radius is a whole number"),
        ("ref=x&radius=-1", "radius is a whole number"),
        ("ref=x&radius=%D9%A3", "radius is a whole number"),
        ("ref=x&radius=99999999999999999999", "radius is a whole number"),
        ("ref=x&page=1001", "page is a whole number of matchings from 1 to 1000"),
        ("ref=x&look=10", "'look' is no option of /match: it has ref, after, profile, radius"),
        ("ref=x&map=/etc", "'map' is no option"),
        ("ref=x&", "'' is no option"),
        ("ref=%FF", "the query isn't UTF-8"),
        ("REF=x", "ref is missing"),
    ],
)
def test_options_that_arent_understood(query: str, said: str, server: Server) -> None:
    status, title, detail = server.get(f"/match?{query}").problem()
    assert (status, title) == (400, "BadRequest") and detail.startswith(said)


def test_limits_of_options(of_examples: Server) -> None:
    """Each has its least and its greatest value, and not one more. The map is small, since each value has it read."""
    server = of_examples
    for what, numbers in NUMBERS.items():
        for name, number in {**TOLERANCES, **numbers}.items():
            most = 10_000 if name == "look" else number.greatest
            for value in (number.least, most):
                assert server.get(path_of(what, "CwVG", **{name: value})).status == 422, name
            for value in (number.least - 1, most + 1):
                assert server.get(path_of(what, "CwVG", **{name: value})).status == 400, name
    too_many = server.get("/places?ref=x&look=10001").problem()[2]
    assert "10,000 at most on this server" in too_many


def test_a_plus_sign_stands_for_itself(server: Server) -> None:
    """As base64 has it, although forms of pages mean a blank by it."""
    text = "CwVF/yN2yRpnBAFUAAgbpwYBAf9kK0F+"
    escaped = server.get("/show?ref=" + quote(text, safe=""))
    assert server.get(f"/show?ref={text}").body == escaped.body and escaped.status == 200


def test_what_isnt_there(server: Server) -> None:
    assert server.get("/nothing").problem()[:2] == (404, "NotFound")
    assert server.get("/match/").problem()[0] == 404
    assert server.get("/batch/show", "POST", b"", **LINES).problem()[0] == 404
    for path in ("/show?ref=x", "/health", "/"):
        refused = server.get(path, "POST", b"", **LINES)
        assert refused.problem()[:2] == (405, "MethodNotAllowed")
        assert "GET" in refused.headers["allow"]
    assert server.get("/batch/match").problem()[:2] == (405, "MethodNotAllowed")
    head = server.get(path_of("match", REFERENCE), "HEAD")
    assert (head.status, head.body) == (200, b"") and int(head.headers["content-length"]) > 0


def test_health(program: Program, server: Server, drawn: Path) -> None:
    reply = server.get("/health")
    about = json.loads(reply.body)
    assert reply.status == 200 and about["able"] and about["map"] == drawn.name
    assert not about["changed"] and about["refused"] is None
    with olr.Map(drawn) as asked:
        assert about["digest"]["network"] == asked.network().digest
    said = program.run("--version").stdout.strip()
    assert about["versions"] == {"olr": said.removeprefix("olr "), "olr-tools": olr.__version__}
    ready = server.get("/ready")
    assert (ready.status, ready.body) == (200, reply.body)
    assert server.figure('olr_requests_total{address="/ready",status="200"}') > 0


def test_metrics(server: Server) -> None:
    name = 'olr_requests_total{address="/match",status="422"}'
    fault = 'olr_faults_total{fault="BadLength"}'
    before = server.figure(name), server.figure(fault)
    for _ in range(3):
        server.get("/match?ref=CwVG")
    assert (server.figure(name), server.figure(fault)) == (before[0] + 3, before[1] + 3)
    other = server.figure('olr_requests_total{address="other",status="404"}')
    server.get("/x/1")
    server.get("/x/2")
    assert server.figure('olr_requests_total{address="other",status="404"}') == other + 2
    assert server.figure('olr_processes{state="working"}') == 0
    assert server.figure("olr_waiting_requests") == 0
    assert server.figure('olr_request_seconds_count{address="/match"}') > 0


def test_the_description(server: Server) -> None:
    """It has the ranges of the options, and the page lists all of it."""
    reply = server.get("/openapi.json")
    document = json.loads(reply.body)
    assert reply.headers["content-type"] == "application/json"
    page = server.get("/docs").body.decode()
    for path, methods in document["paths"].items():
        assert f'id="{path}"' in page
        for method, about in methods.items():
            assert f"{method.upper()} {path}<" in page
            assert server.get(path, method.upper()).status not in (404, 405), path
        for parameter in methods.get("get", about)["parameters"]:
            schema = parameter["schema"]
            if "minimum" in schema:
                assert f"{schema['minimum']:,} to {schema['maximum']:,}" in page
                least = {parameter["name"]: schema["minimum"] - 1}
                if "get" in methods:
                    assert server.get(path_of(path[1:], "x", **least)).status == 400
    named = {it["name"] for it in document["paths"]["/match"]["get"]["parameters"]}
    assert named == {"ref", "after", "profile", *TOLERANCES, *NUMBERS["match"], "detail", "shape"}
    marks = re.findall(r' id="([^"]+)"', page)
    assert len(marks) == len(set(marks))
    assert {line.split(" ")[0] for line in ROWS} < set(marks)
    modules = Path(problems.__file__).parent.glob("*.py")
    titles = re.findall(r'Problem\(\d+, "(\w+)"', "".join(file.read_text() for file in modules))
    assert {"Busy", "NotFound", "MethodNotAllowed", "InternalServerError", *titles} < set(marks)
    assert "<script" not in page


def test_texts_of_the_description_are_no_markup() -> None:
    """Each of them stands as it is, on the page that is made of it."""
    text = "<script>\"'&"
    option = {"name": text, "schema": {"type": "string"}, "description": text}
    about = {
        "summary": text,
        "parameters": [option | {"required": True, "example": text}],
        "responses": {"200": {"content": {text: {}}}},
    }
    info = {"title": text, "version": text, "description": text}
    page = described({"info": info, "paths": {f"/{text}": {"get": about}}})
    # Title twice, version and description; the path thrice; summary, type; the option's name and description; both in the example.
    assert page.count("&lt;script&gt;&quot;&#x27;&amp;") == 2 + 2 + 3 + 2 + 2 + 2
    assert "<script" not in page
    del about["summary"]
    with pytest.raises(UndefinedError, match="summary"):
        described({"info": info, "paths": {"/x": {"get": about}}})


def test_pages_load_nothing_from_elsewhere(server: Server) -> None:
    reply = server.get("/")
    assert reply.status == 200 and reply.headers["content-type"].startswith("text/html")
    assert server.get("/assets/docs.css").headers["content-type"].startswith("text/css")
    for path in ("/", "/docs"):
        assert b"//" not in server.get(path).body.replace(b"http://127.0.0.1", b"")
