"""What clients of HTTP expect of `olr-tools serve`: gzip, caches, and names of requests."""

import gzip
import json
import os
import pytest
import re
import shutil
import signal
import zlib
from collections.abc import Iterator, Sequence
from pathlib import Path
from starlette.types import Message, Receive, Scope, Send
from typing import Any

from conftest import REFERENCE, TOP, Program
from fake_pool import run_within
from olr.asking.files import Version
from olr.errors import MapRefused
from olr.model.questions import NUMBERS
from olr.serving.compressing import LEAST, MOST_AT_ONCE, Compressing, is_wanted
from olr.serving.folder_map import FolderMap
from olr.serving.front import request_id_of
from olr.serving.limits import Limits
from olr.serving.store_map import StoreMap
from servers import Server, path_of, serving, wait_until

LINES = {"Content_Type": "text/plain"}
SITE = "https://maps.example"


@pytest.fixture(scope="module")
def server(program: Program, tmp_path_factory: pytest.TempPathFactory) -> Iterator[Server]:
    """A server on the example's town, which pages of another site may ask."""
    log = tmp_path_factory.mktemp("log") / "log"
    with serving(program.path, TOP / "examples", log, "--allow-origin", SITE) as found:
        yield found


@pytest.mark.parametrize(
    "accept", ["gzip", "GZIP", "deflate, gzip;q=0.5", "*", "br, *;q=0.1", "gzip;q=1, identity;q=1"]
)
def test_gzip_is_wanted(accept: str) -> None:
    assert is_wanted(accept)


@pytest.mark.parametrize(
    "accept",
    ["", "identity", "gzip;q=0", "*;q=0", "*, gzip;q=0", "br", "gzip;q=0.5, identity", "x-gzip"],
)
def test_gzip_is_not_wanted(accept: str) -> None:
    assert not is_wanted(accept)


@pytest.mark.parametrize(
    "path",
    [
        path_of("match", REFERENCE, page=100, radius=1000, bearing=16, profile="program"),
        path_of("why", REFERENCE, nearest=60),
        path_of("scene", REFERENCE),
        "/",
        "/openapi.json",
        "/assets/page.js",
        path_of("match", "CwVG"),
        "/nothing",
        "/health",
    ],
)
def test_whole_answers_as_gzip(path: str, server: Server) -> None:
    """The same bytes, if there are enough of them to save any."""
    for accept in ("*/*", "application/geo+json"):
        plain = server.get(path, Accept=accept, X_Request_Id="x")
        packed = server.get(path, Accept=accept, X_Request_Id="x", Accept_Encoding="gzip")
        is_long = len(plain.body) >= LEAST
        assert packed.headers.get("content-encoding") == ("gzip" if is_long else None)
        assert plain.body == (gzip.decompress(packed.body) if is_long else packed.body)
        assert packed.status == plain.status and len(packed.body) <= len(plain.body)
        for one in (plain, packed):
            assert "Accept-Encoding" in one.headers["vary"]
            assert int(one.headers["content-length"]) == len(one.body)
        fields = {"Accept": accept, "X_Request_Id": "x", "Accept_Encoding": "gzip"}
        head = server.get(path, "HEAD", **fields)
        assert head.headers["content-length"] == packed.headers["content-length"]


def test_streams_as_gzip(server: Server) -> None:
    lines = f"{REFERENCE}\nCwVG\n".encode() * 200
    for path in ("/batch/match", "/batch/why", "/rows"):
        plain = server.get(path, "POST", lines, **LINES)
        packed = server.get(path, "POST", lines, Accept_Encoding="gzip", **LINES)
        assert packed.headers["content-encoding"] == "gzip"
        assert gzip.decompress(packed.body) == plain.body and len(packed.body) * 4 < len(plain.body)


class App:
    """An application that answers pieces, and looks what of them has come."""

    def __init__(self, pieces: Sequence[bytes], status: int = 200, **headers: str) -> None:
        self._pieces, self._status = pieces, status
        self._headers = [(it.encode(), text.encode()) for it, text in headers.items()]
        self.came: list[bytes] = []
        """What a client can read when a piece was sent."""
        self.head: dict[bytes, bytes] = {}
        self._unpacking = zlib.decompressobj(31)

    async def __call__(self, _: Scope, __: Receive, send: Send) -> None:
        """Answers."""
        start = {"type": "http.response.start", "status": self._status, "headers": self._headers}
        await send(start)
        for number, piece in enumerate(self._pieces, 1):
            has_more = number < len(self._pieces)
            await send({"type": "http.response.body", "body": piece, "more_body": has_more})

    async def _taken(self, message: Message) -> None:
        if message["type"] == "http.response.start":
            self.head = dict(message["headers"])
        elif b"content-encoding" in self.head:
            self.came.append(self._unpacking.decompress(message["body"]))
        else:
            self.came.append(message["body"])

    def ask(self) -> None:
        """Asks for gzip."""

        async def receive() -> Any:
            raise AssertionError

        scope = {"type": "http", "headers": [(b"accept-encoding", b"gzip")]}
        run_within(Compressing(self)(scope, receive, self._taken))


def test_lines_are_not_held_back() -> None:
    """A client that waits for its line gets it: also a short one, and one that is packed in a thread."""
    pieces = [b"a line\n", b"x" * (MOST_AT_ONCE + 1), b"another\n", b""]
    app = App(pieces, vary="Accept")
    app.ask()
    assert app.came == pieces
    assert app.head[b"vary"] == b"Accept, Accept-Encoding" and b"content-length" not in app.head


@pytest.mark.parametrize("status, size", [(200, LEAST - 1), (204, 0), (304, 0)])
def test_answers_that_stay(status: int, size: int) -> None:
    app = App([b"x" * size], status, etag='"a"')
    app.ask()
    assert app.came == [b"x" * size] and b"content-encoding" not in app.head
    assert (app.head[b"etag"], app.head[b"vary"]) == (b'"a"', b"Accept-Encoding")


@pytest.mark.parametrize("tag", ['"a"', 'W/"a"'])
def test_tags_of_packed_answers_are_weak(tag: str) -> None:
    """They are of other bytes, and yet the same answer."""
    app = App([b"x" * LEAST], etag=tag)
    app.ask()
    assert app.head[b"etag"] == b'W/"a"' and app.came == [b"x" * LEAST]


def test_what_answers_depend_on(server: Server) -> None:
    """Caches hear of each field of a request, and of the site also where it may not ask."""
    for origin, status in ((SITE, 200), ("https://evil.example", 403), (server.url[:-1], 200)):
        reply = server.get(path_of("match", REFERENCE), Origin=origin)
        said = {name.strip() for name in reply.headers["vary"].split(",")}
        assert reply.status == status
        assert said == ({"Origin"} if status == 403 else {"Accept", "Accept-Encoding", "Origin"})
    streamed = server.get("/batch/match", "POST", b"CwVG\n", **LINES)
    assert streamed.headers["vary"] == "Accept, Accept-Encoding, Origin"
    assert json.loads(streamed.body)["fault"] == "BadLength 3"


CACHED = [path_of(what, REFERENCE) for what in ("show", *NUMBERS)]
OTHER = "CwVGnSN2zhvHCgDX/tIzAw=="


@pytest.mark.parametrize("path", CACHED)
def test_answers_that_a_client_has(path: str, server: Server) -> None:
    """The same question has the same tag, and another one another; a client that has the answer gets none."""
    reply = server.get(path)
    tag = reply.headers["etag"]
    assert reply.headers["cache-control"] == "no-cache"
    for said in (tag, f"W/{tag}", f'"x", {tag}', f'W/"y",W/{tag}'):
        for method in ("GET", "HEAD"):
            known = server.get(path, method, If_None_Match=said)
            assert (known.status, known.body, known.headers["etag"]) == (304, b"", tag)
            assert known.headers["vary"] == reply.headers["vary"]
            assert known.headers["cache-control"] == "no-cache"
    for said in ('"x"', tag[:-2], tag.strip('"'), ""):
        assert server.get(path, If_None_Match=said).body == reply.body
    packed = server.get(path, Accept_Encoding="gzip", If_None_Match=f"W/{tag}")
    assert packed.status == 304


def test_other_questions_have_other_tags(server: Server) -> None:
    others: list[dict[str, object]] = [
        {"page": 2},
        {"radius": 99},
        {"profile": "program"},
        {"profile": "program", "after": "8:1.1.1", "page": 1},
        {"profile": "program", "after": "8:1.1.1", "page": 2},
    ]
    paths = [*CACHED, path_of("match", OTHER), path_of("why", REFERENCE, nearest=3)]
    paths += [path_of("match", REFERENCE, **one) for one in others]
    tags = [server.get(path).headers["etag"] for path in paths]
    assert len(set(tags)) == len(paths)
    for same in (
        path_of("match", f" {REFERENCE}", page=10, radius=75),
        path_of("match", REFERENCE, radius=75, profile="feed"),
    ):
        assert (
            server.get(same).headers["etag"]
            == server.get(path_of("match", REFERENCE)).headers["etag"]
        )


def test_answers_without_a_tag(server: Server) -> None:
    """Faults, and what isn't of the program alone: the names of roads may change beside the map."""
    path = path_of("match", REFERENCE)
    tag = server.get(path).headers["etag"]
    geojson = server.get(path, Accept="application/geo+json", If_None_Match=tag)
    assert geojson.status == 200 and "etag" not in geojson.headers
    for path in (path_of("match", "CwVG"), path_of("scene", REFERENCE), "/health"):
        assert "etag" not in server.get(path).headers
    body = json.dumps({"ref": REFERENCE})
    asked = server.get("/match", "POST", body, Content_Type="application/json", If_None_Match=tag)
    assert asked.status == 200


def test_another_map_has_other_tags(program: Program, tmp_path: Path) -> None:
    """Without asking the program while the files are the same; and once they have changed it is asked."""
    folder = Path(shutil.copytree(TOP / "examples", tmp_path / "map"))
    path = path_of("match", REFERENCE)
    with serving(program.path, folder, tmp_path / "log", "--workers", 1) as server:
        tag = server.get(path).headers["etag"]
        (process,) = server.programs()
        os.kill(process, signal.SIGSTOP)
        assert server.get(path, If_None_Match=tag).status == 304
        os.kill(process, signal.SIGCONT)
        (folder / "bans.csv").write_text("from,to\n")
        wait_until(lambda: server.get("/ready").status == 503)
        assert server.get(path, If_None_Match=tag).status == 304
        server.signal(signal.SIGHUP)
        wait_until(lambda: server.get("/ready").status == 200)
        again = server.get(path, If_None_Match=tag)
        assert again.status == 200 and again.headers["etag"] != tag


def test_files_that_have_changed_are_not_known() -> None:
    """And neither is a store, at which nobody looks."""

    async def run() -> None:
        found = FolderMap(TOP / "examples", 1, Limits())
        assert found.unchanged() is None
        version = found.pool.edition.files.version = Version("a", "b")
        assert found.unchanged() == version
        found.pool.trouble = MapRefused("other files")
        assert found.unchanged() is None
        assert StoreMap(Path("map.gpkg"), Limits()).unchanged() is None

    run_within(run())


@pytest.mark.parametrize(
    "name", ["x", "8f3c2a9b-e07d-4415-a1b2-0123456789ab", "A" * 64, "a.b:c+/=@_"]
)
def test_names_of_requests(name: str, server: Server) -> None:
    """That of the request is that of the answer, and of a problem."""
    reply = server.get(path_of("match", REFERENCE), X_Request_Id=name)
    assert (reply.status, reply.headers["x-request-id"]) == (200, name)
    for path, method in ((path_of("match", "CwVG"), "GET"), ("/nothing", "GET"), ("/rows", "POST")):
        refused = server.get(path, method, X_Request_Id=name)
        assert json.loads(refused.body)["request_id"] == refused.headers["x-request-id"] == name
        assert refused.problem()[0] in (422, 404, 415)
    foreign = server.get("/health", Origin="https://evil.example", X_Request_Id=name)
    assert foreign.problem()[0] == 403 and foreign.headers["x-request-id"] == name


@pytest.mark.parametrize("name", ["", "A" * 65, "a b", "a\tb", '"', "ä", "<b>", "a%0Ab", "a,b"])
def test_names_that_are_made(name: str, server: Server) -> None:
    """Where there is none, or one that shouldn't be in a log; each is another one."""
    replies = [server.get("/show?ref=CwVG", X_Request_Id=name) for _ in range(2)]
    replies += [server.get("/show?ref=CwVG"), server.get("/assets/page.js")]
    made = [reply.headers["x-request-id"] for reply in replies]
    assert len(set(made)) == 4 and all(re.fullmatch("[0-9a-f]{16}", one) for one in made)


def test_a_name_that_is_given_twice() -> None:
    headers = [(b"x-request-id", b"a"), (b"x-request-id", b"b")]
    assert request_id_of({"headers": headers[:1]}) == "a"
    assert len(request_id_of({"headers": headers})) == 16
