"""`olr-tools serve` with several maps: each answers below its name as it does alone."""

import json
import os
import pytest
import shutil
import signal
from collections.abc import Iterator
from pathlib import Path

from asking import draw_map, draw_references
from conftest import REFERENCE, TOP, Program, Tools
from forked import Forked
from servers import Server, expected_of, path_of, serving, wait_until

EXAMPLES = TOP / "examples"


@pytest.fixture(scope="module")
def drawn(tmp_path_factory: pytest.TempPathFactory) -> Path:
    """A drawn map."""
    return draw_map(tmp_path_factory.mktemp("drawn"))


@pytest.fixture(scope="module")
def texts(drawn: Path) -> list[str]:
    """References on it."""
    return [text for text in draw_references(drawn, 30) if text.isascii()]


@pytest.fixture(scope="module")
def server(
    program: Program, drawn: Path, tmp_path_factory: pytest.TempPathFactory
) -> Iterator[Server]:
    """A server on the town of the examples, and that map."""
    folder = tmp_path_factory.mktemp("log")
    town = shutil.copytree(EXAMPLES, folder / "copy")
    maps = ("--map", f"drawn={drawn}", "--root-path", "/olr")
    with serving(program.path, f"town={town}", folder / "log", *maps) as found:
        yield found


def test_answers_of_each_map(
    server: Server, program: Program, drawn: Path, texts: list[str]
) -> None:
    """Without a name those of the first one."""
    for name, folder in (("", EXAMPLES), ("/town", EXAMPLES), ("/drawn", drawn)):
        for text, expected in zip(texts, expected_of(program, folder, "match", texts)):
            assert expected.agrees(server.get(name + path_of("match", text)))
        for path in ("/batch/match", "/rows"):
            body = "\n".join(texts)
            reply = server.get(name + path, "POST", body, Content_Type="text/plain")
            assert reply.status == 200 and reply.body.count(b"\n") == len(texts)
    assert server.figure('olr_requests_total{address="/match",status="200"}') > len(texts)


def test_tags_of_each_map(server: Server) -> None:
    tags = [server.get(f"{name}/show?ref={REFERENCE}").headers["etag"] for name in ("", "/drawn")]
    assert tags[0] == tags[1]
    paths = [name + path_of("candidates", REFERENCE, radius=1) for name in ("", "/town", "/drawn")]
    found = [server.get(path).headers["etag"] for path in paths]
    assert found[0] == found[1] != found[2]


def test_which_maps_there_are(server: Server, drawn: Path) -> None:
    for name in ("", "/olr", "/drawn", "/olr/town"):
        found = json.loads(server.get(f"{name}/maps").body)["maps"]
        assert [one.pop("name") for one in found] == ["town", "drawn"]
        for one, own in zip(found, ("town", "drawn")):
            health = json.loads(server.get(f"/{own}/health").body)
            del health["versions"]
            assert health == one
    assert json.loads(server.get("/drawn/health").body)["map"] == drawn.name


def test_addresses_below_a_name(server: Server) -> None:
    """Links, types of problems and the OpenAPI document have it."""
    moved = server.get("/town")
    assert (moved.status, moved.headers["location"]) == (308, "/olr/town/")
    for path in ("/town/", "/olr/town/", "/town/assets/page.js", "/town/docs"):
        assert server.get(path).status == 200
    refused = json.loads(server.get("/drawn/match?ref=CwVG").body)
    assert refused["type"] == "/olr/drawn/docs#BadLength"
    document = json.loads(server.get("/olr/drawn/openapi.json").body)
    assert document["servers"] == [{"url": "/olr/drawn"}]
    for path in ("/other/match", "/town/town/match", "/townmatch", "/town/nothing"):
        assert server.get(path).status == 404


def test_a_map_that_changes(server: Server) -> None:
    """The other one goes on, and SIGHUP reads both anew."""
    copy = server.errors.parent / "copy"
    before = server.get(path_of("match", REFERENCE)).headers["etag"]
    (copy / "bans.csv").write_text("from,to\n")
    wait_until(lambda: server.get("/town/ready").status == 503)
    assert server.get("/drawn/ready").status == 200
    server.signal(signal.SIGHUP)
    wait_until(lambda: server.get("/town/ready").status == 200)
    assert server.get(path_of("match", REFERENCE)).headers["etag"] != before


@pytest.mark.parametrize(
    "words, said",
    [
        (["examples", "examples"], "several maps have a name each"),
        (["a=examples", "examples"], "several maps have a name each"),
        (["examples", "a=examples"], "several maps have a name each"),
        (["a=examples", "a=examples"], "several maps have a name each"),
        (["match=examples"], "'match' isn't a name of a map: an address begins so"),
        (["assets=examples"], "'assets' isn't a name of a map: an address begins so"),
        (["a/b=examples"], "'a/b' isn't a name of a map"),
        (["=examples"], "'' isn't a name of a map"),
        ([], "Missing option '--map'"),
    ],
)
def test_names_that_arent_clear(words: list[str], said: str, tools: Tools) -> None:
    ended = tools.run("serve", *(word for one in words for word in ("--map", one)))
    assert ended.returncode == 2 and said in ended.stderr


def test_a_map_that_is_refused(program: Program, tmp_path: Path) -> None:
    """Nothing is served then."""
    words = ["serve", "--map", f"a={EXAMPLES}", "--map", f"b={tmp_path}", "--port", "0"]
    environment = os.environ | {"OLR_PROGRAM": str(program.path)}
    with Forked(words, environment, tmp_path / "log") as process:
        assert process.wait() == 1 and process.stdout.read() == ""
    said = (tmp_path / "log").read_text().splitlines()[-1]
    assert said.startswith("olr-tools: the map b: olr refuses the map: OpenFailed nodes")


def test_a_path_with_an_equals_sign(program: Program, tmp_path: Path) -> None:
    """That is there is no name."""
    folder = shutil.copytree(EXAMPLES, tmp_path / "a=b")
    with serving(program.path, folder, tmp_path / "log") as server:
        found = json.loads(server.get("/maps").body)["maps"]
        assert [(one["name"], one["map"]) for one in found] == [(None, "a=b")]
