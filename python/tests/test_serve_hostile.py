"""What `olr-tools serve` makes of requests that aren't meant well."""

import asyncio
import http.client
import json
import os
import pytest
import re
import resource
import socket
import time
from collections.abc import Iterator
from pathlib import Path
from typing import NamedTuple

from conftest import REFERENCE, TOP, Program
from servers import Server, path_of, reply_on, serving, started, wait_until

EXAMPLES = TOP / "examples"
SILENT = 5_000
"""So many connections that send nothing, or as many as the system admits: more than the server holds."""


@pytest.fixture(scope="module")
def server(program: Program, tmp_path_factory: pytest.TempPathFactory) -> Iterator[Server]:
    """A server on the example's town."""
    errors = tmp_path_factory.mktemp("log") / "log"
    with serving(program.path, EXAMPLES, errors, "--body-limit", 1, begin=started) as found:
        yield found
        assert "Traceback" not in found.log()


class Said(NamedTuple):
    """What the server said to some bytes."""

    status: int
    head: bytes
    body: bytes


def said_to(server: Server, data: bytes) -> Said:
    """What a server says to bytes, until it closes the connection, or for a second."""
    with socket.create_connection(("127.0.0.1", server.port), timeout=1) as connection:
        try:
            connection.sendall(data)
            said = b""
            while piece := connection.recv(65_536):
                said += piece
        except OSError:
            pass
    head, _, body = said.partition(b"\r\n\r\n")
    return Said(int(head.split(b" ")[1]) if head else 0, head, body)


def request(server: Server, line: str, *fields: str) -> bytes:
    """A request with a field Host, which ends the connection."""
    host = f"Host: 127.0.0.1:{server.port}"
    return "\r\n".join([line, host, "Connection: close", *fields, "", ""]).encode("latin-1")


def is_well(server: Server) -> bool:
    """Whether it answers as ever."""
    reply = server.get(path_of("match", REFERENCE, profile="program"))
    return reply.status == 200 and json.loads(reply.body)["matchings"][0]["total"] == 8


@pytest.mark.parametrize(
    "line, statuses",
    [
        ("GET /../../etc/passwd HTTP/1.1", {404}),
        ("GET /assets/../command.py HTTP/1.1", {404}),
        ("GET /assets/%2e%2e/command.py HTTP/1.1", {404}),
        ("GET /assets/..%2fcommand.py HTTP/1.1", {404}),
        ("GET /assets//etc/passwd HTTP/1.1", {404}),
        ("GET /assets/docs.css%00.html HTTP/1.1", {404}),
        ("GET //match?ref=x HTTP/1.1", {422}),
        ("GET /match%3Fref=x HTTP/1.1", {404}),
        ("GET /match;ref=x HTTP/1.1", {404}),
        ("GET /MATCH?ref=x HTTP/1.1", {404}),
        ("GET http://127.0.0.1/match?ref=x HTTP/1.1", {400}),
        ("GET http://evil.example/match?ref=x HTTP/1.1", {400}),
        ("GET /m\xe9 HTTP/1.1", {400}),
        ("OPTIONS * HTTP/1.1", {400}),
        ("CONNECT evil.example:80 HTTP/1.1", {400}),
        ("TRACE /match HTTP/1.1", {405}),
        ("DELETE /match HTTP/1.1", {405}),
        ("PUT /batch/match HTTP/1.1", {405}),
        ("FROB /match HTTP/1.1", {400}),
        ("GET /match?ref=x HTTP/9.9", {400, 422, 505}),
        ("GET /match?ref=x", {400, 422}),
        ("\x16\x03\x01\x02\x00\x01\x00", {400}),
        ("GET /match?ref=%00 HTTP/1.1", {422}),
        ("GET /match?ref=%0a%09 HTTP/1.1", {422}),
        ("GET /match?ref=--help HTTP/1.1", {422}),
        ("GET /match?ref=-x&after=--all HTTP/1.1", {422}),
        ("GET /show?ref=--help HTTP/1.1", {422}),
        ("GET /match?ref=$(id)`id`;id| HTTP/1.1", {422}),
        ("GET /match?ref=%F0%9F%92%A9 HTTP/1.1", {422}),
        ("GET /match?ref=%ED%A0%80 HTTP/1.1", {400}),
        ("GET /match?ref=%zz HTTP/1.1", {422}),
        ("GET /match?ref=x#y HTTP/1.1", {400, 422}),
    ],
)
def test_lines(line: str, statuses: set[int], server: Server) -> None:
    said = said_to(server, request(server, line))
    assert said.status in statuses, said
    assert b"application/problem+json" in said.head
    assert json.loads(said.body)["status"] == said.status
    for name in (b"content-security-policy", b"x-content-type-options: nosniff"):
        assert name in said.head.lower()
    assert str(TOP).encode() not in said.body and b"/tmp" not in said.body


def test_lengths(server: Server) -> None:
    """Of a reference, a URL, a field, and many fields. A reference that is too long has the program's fault."""
    assert server.get("/match?ref=" + "A" * 5000).problem()[:2] == (422, "TooLong")
    assert server.get("/match?ref=" + "A" * 9000).problem()[:2] == (414, "URITooLong")
    for size in (9000, 200_000):
        said = said_to(server, request(server, f"GET /match?ref={'A' * size} HTTP/1.1"))
        assert said.status in (0, 400, 414)
    fields = [f"X-{number}: {'y' * 100}" for number in range(300)]
    assert said_to(server, request(server, "GET /health HTTP/1.1", *fields)).status == 431
    many = [f"X{number}:" for number in range(8000)]
    assert said_to(server, request(server, "GET /health HTTP/1.1", *many)).status in (0, 431)
    one = request(server, "GET /health HTTP/1.1", "X: " + "y" * 200_000)
    assert said_to(server, one).status in (0, 400, 431)
    assert is_well(server)


def test_hosts(server: Server) -> None:
    """A page whose own name was made to lead here has another name in its requests."""
    port = server.port
    for host in (f"localhost:{port}", f"127.0.0.1:{port}", f"[::1]:{port}", f"LOCALHOST:{port}"):
        assert server.get("/health", Host=host).status == 200
    others = ["evil.example", f"evil.example:{port}", "localhost", "localhost:1", "127.0.0.1"]
    others += [f"127.0.0.1:{port}.evil.example", f"localhost:{port}@evil.example", f"127.1:{port}"]
    for host in others:
        assert server.get("/health", Host=host).problem()[:2] == (421, "MisdirectedRequest")
    for fields in (b"", b"Host: localhost:%d\r\nHost: evil.example\r\n" % port):
        assert said_to(server, b"GET /health HTTP/1.1\r\n%b\r\n" % fields).status == 400


@pytest.mark.parametrize(
    "origin", ["http://evil.example", "null", "https://127.0.0.1", "http://localhost:1"]
)
def test_pages_of_other_sites(origin: str, server: Server) -> None:
    """They get nothing, and make the program do nothing."""
    for path, method in (("/match?ref=x", "GET"), ("/batch/match", "POST")):
        reply = server.get(path, method, b"" if method == "POST" else None, Origin=origin)
        assert reply.problem()[:2] == (403, "OtherOrigin")
        assert "access-control-allow-origin" not in reply.headers
    asked = server.get(
        "/batch/match", "OPTIONS", Origin=origin, Access_Control_Request_Method="POST"
    )
    assert asked.problem()[0] == 403
    own = server.get("/match?ref=CwVG", Origin=f"http://127.0.0.1:{server.port}")
    assert own.status == 422 and "access-control-allow-origin" not in own.headers


def test_images_and_links_of_other_sites(server: Server) -> None:
    """A link may lead here; an image or a script may not."""
    for site in ("cross-site", "same-site"):
        linked = server.get("/match?ref=CwVG", Sec_Fetch_Site=site, Sec_Fetch_Mode="navigate")
        assert linked.status == 422
        loaded = server.get("/match?ref=CwVG", Sec_Fetch_Site=site, Sec_Fetch_Mode="no-cors")
        assert loaded.problem()[:2] == (403, "OtherOrigin")
    for site in ("same-origin", "none"):
        assert server.get("/match?ref=CwVG", Sec_Fetch_Site=site).status == 422


def test_sites_that_are_allowed(program: Program, tmp_path: Path) -> None:
    site = "https://maps.example"
    options = ["--allow-origin", site, "--allow-host", "olr.example", "--tiles"]
    options += ["https://{s}.tiles.example/{z}/{x}/{y}.png"]
    with serving(program.path, EXAMPLES, tmp_path / "log", *options) as server:
        reply = server.get(path_of("match", REFERENCE), Origin=site)
        assert reply.status == 200 and reply.headers["access-control-allow-origin"] == site
        assert reply.headers["vary"].startswith(("Accept", "Origin"))
        assert reply.headers["cross-origin-resource-policy"] == "cross-origin"
        asked = server.get(
            "/batch/match", "OPTIONS", Origin=site, Access_Control_Request_Method="POST"
        )
        assert asked.status == 204 and "POST" in asked.headers["access-control-allow-methods"]
        assert server.get("/match?ref=x", Origin="https://evil.example").status == 403
        for host in ("olr.example", f"olr.example:{server.port}"):
            assert server.get("/health", Host=host).status == 200
        assert server.get("/health", Host="evil.example").status == 421
        policy = reply.headers["content-security-policy"]
        assert "img-src 'self' data: https://*.tiles.example;" in policy
        assert json.loads(server.get(path_of("scene", REFERENCE)).body)["tiles"] == options[-1]


def test_fields_of_all_answers(server: Server) -> None:
    for path in ("/", "/match?ref=x", "/nothing", path_of("match", REFERENCE), "/metrics"):
        headers = server.get(path).headers
        assert headers["content-security-policy"].startswith("default-src 'none';")
        assert "unsafe" not in headers["content-security-policy"]
        assert headers["x-content-type-options"] == "nosniff"
        assert headers["referrer-policy"] == "no-referrer"
        assert headers["cross-origin-resource-policy"] == "same-origin"
        assert "access-control-allow-origin" not in headers and "server" not in headers


def test_types_of_bodies(server: Server) -> None:
    """Those that forms of pages send are refused, but for text/plain, of which the field Origin is looked at."""
    refused = ["application/x-www-form-urlencoded", "multipart/form-data; boundary=x", "", "x"]
    refused += ["application/json", "text/html"]
    for kind in refused:
        reply = server.get("/batch/match", "POST", b"CwVG\n", Content_Type=kind)
        assert reply.problem()[:2] == (415, "UnsupportedMediaType")
    for kind in ("text/plain; charset=utf-8", "TEXT/PLAIN", "application/x-ndjson"):
        assert server.get("/batch/match", "POST", b"CwVG\n", Content_Type=kind).status == 200


def test_bodies_that_are_too_large(server: Server) -> None:
    """Here the limit is one MiB: by its length, or as it comes."""
    body = b"x\n" * 600_000
    assert server.get("/batch/match", "POST", body, Content_Type="text/plain").problem()[0] == 413
    head = request(
        server,
        "POST /batch/match HTTP/1.1",
        "Content-Type: text/plain",
        "Transfer-Encoding: chunked",
    )
    blank = b"\n" * 65_536
    said = said_to(server, head + (b"10000\r\n%b\r\n" % blank) * 20)
    assert said.status in (0, 413)
    assert is_well(server)


@pytest.mark.parametrize(
    "fields, body, statuses",
    [
        (["Transfer-Encoding: chunked"], b"zz\r\nx\r\n0\r\n\r\n", {0, 200, 400}),
        (["Transfer-Encoding: chunked"], b"5\r\nCwVG\nX0\r\n\r\n", {0, 200, 400}),
        (["Transfer-Encoding: chunked"], b"ffffffffffffffffff\r\n", {0, 200, 400}),
        (["Transfer-Encoding: chunked", "Content-Length: 5"], b"0\r\n\r\n", {0, 200, 400}),
        (["Transfer-Encoding: identity"], b"", {200, 400, 0}),
        (["Content-Length: -1"], b"", {400}),
        (["Content-Length: x"], b"", {400}),
        (["Content-Length: 5", "Content-Length: 6"], b"CwVG\n", {400}),
        (["Content-Length: 99999999999999999999"], b"", {400, 413}),
        (["Content-Length: 5", "Expect: 100-continue"], b"CwVG\n", {100, 200}),
        (["Content-Length: 5", "Upgrade: websocket", "Connection: upgrade"], b"CwVG\n", {400, 200}),
    ],
)
def test_framing_of_bodies(
    fields: list[str], body: bytes, statuses: set[int], server: Server
) -> None:
    head = request(server, "POST /batch/match HTTP/1.1", "Content-Type: text/plain", *fields)
    assert said_to(server, head + body).status in statuses
    assert is_well(server)


def test_a_body_where_none_is_wanted(server: Server) -> None:
    """It isn't read as another request."""
    inner = request(server, "GET /nothing HTTP/1.1")
    data = request(server, "GET /health HTTP/1.1", f"Content-Length: {len(inner)}") + inner
    said = said_to(server, data)
    assert said.status == 200 and b"NotFound" not in said.body


def test_requests_in_a_row(server: Server) -> None:
    """Some requests may be sent before the first answer, but not any number."""
    head = f"GET /match?ref=CwVG HTTP/1.1\r\nHost: localhost:{server.port}\r\n\r\n".encode()
    said = said_to(server, head * 8)
    assert said.status == 422 and (said.head + said.body).count(b"HTTP/1.1 422") == 8
    said_to(server, head * 5000)
    assert is_well(server)


def test_clients_that_leave_what_they_asked_in_a_row(program: Program, tmp_path: Path) -> None:
    """Of a hundred times sixteen requests that nobody waits for nothing is logged."""
    with serving(program.path, EXAMPLES, tmp_path / "log") as server:
        head = (
            f"GET {path_of('places', REFERENCE)} HTTP/1.1\r\nHost: 127.0.0.1:{server.port}\r\n\r\n"
        )
        for _ in range(100):
            with socket.create_connection(("127.0.0.1", server.port)) as connection:
                connection.sendall(head.encode() * 16)
        assert is_well(server)
        wait_until(lambda: server.figure("olr_waiting_requests") == 0)
        assert server.log() == ""


def test_websockets(server: Server) -> None:
    fields = [
        "Upgrade: websocket",
        "Connection: Upgrade",
        "Sec-WebSocket-Key: x",
        "Sec-WebSocket-Version: 13",
    ]
    said = said_to(server, request(server, "GET /match?ref=x HTTP/1.1", *fields))
    assert said.status == 400 and b"no other protocol" in said.body


def test_an_offer_of_http_2(server: Server) -> None:
    """As Java's client makes it: the answer is that of HTTP/1.1, and the connection is closed behind it. With a body it is refused."""
    fields = ["Connection: Upgrade, HTTP2-Settings", "Upgrade: h2c", "HTTP2-Settings: AAMAAABk"]
    for line in ("GET /show?ref=CwVGnSN2zhvHCgDX/tIzAw== HTTP/1.1", "GET /health HTTP/1.1"):
        plain = said_to(server, request(server, line, "Connection: close"))
        said = said_to(server, request(server, line, *fields))
        assert (said.status, said.body) == (200, plain.body)
    said = said_to(server, request(server, "GET /health HTTP/1.1", *fields, "Content-Length: 1"))
    assert said.status == 400 and is_well(server)


def test_thousands_of_silent_connections(server: Server) -> None:
    """Others are answered meanwhile, and the server holds no more of them than it may."""
    soft, hard = resource.getrlimit(resource.RLIMIT_NOFILE)
    resource.setrlimit(resource.RLIMIT_NOFILE, (hard, hard))
    count = max(100, min(SILENT, hard - 500))
    connections: list[socket.socket] = []
    before = server.memory()
    try:
        for number in range(count):
            connection = socket.socket()
            connection.setblocking(False)
            connections.append(connection)
            connection.connect_ex(("127.0.0.1", server.port))
            if number % 2:
                wait = time.monotonic() + 0.05
                while time.monotonic() < wait:
                    try:
                        connection.send(b"GET /match?ref=")
                        break
                    except OSError:
                        time.sleep(0.0005)
            if number % 1000 == 999:
                assert is_well(server)
        for _ in range(20):
            assert is_well(server)
        files = f"/proc/{server.process.pid}/fd"
        assert len(os.listdir(files)) < 4096 + 256
        assert server.memory() - before < 200_000
        # Their time is over.
        wait_until(lambda: len(os.listdir(files)) < 200)
    finally:
        for connection in connections:
            connection.close()
        resource.setrlimit(resource.RLIMIT_NOFILE, (soft, hard))
    assert is_well(server)


SLOW = {
    "heads": b"GET /match?ref=",
    "bodies": b"POST /messages HTTP/1.1\r\nHost: localhost:%d\r\nContent-Length: 9000\r\n\r\nx",
    "streams": b"POST /batch/match HTTP/1.1\r\nHost: localhost:%d\r\nContent-Length: 9000\r\n"
    b"Content-Type: text/plain\r\n\r\nx",
    "answers": b"GET /assets/leaflet.js HTTP/1.1\r\nHost: localhost:%d\r\n\r\n" * 2,
}


@pytest.mark.parametrize("kind", SLOW)
def test_a_thousand_slow_sockets(kind: str, server: Server) -> None:
    """Of one client. Another one is answered as ever, and so are both by the addresses that tell how the server is."""
    data = SLOW[kind].replace(b"%d", b"%d" % server.port)
    there = list[socket.socket]()
    try:
        for _ in range(1000):
            slow = socket.create_connection(
                ("127.0.0.1", server.port), source_address=("127.0.0.2", 0)
            )
            slow.sendall(data)
            there.append(slow)
        assert is_well(server)
        for path in ("/health", "/metrics"):
            assert server.get(path).status == 200
            own = http.client.HTTPConnection(
                "127.0.0.1", server.port, timeout=600, source_address=("127.0.0.2", 0)
            )
            assert reply_on(own, path).status == 200
            own.close()
        assert server.get("/messages?format=tab", "POST", b"k\tCwVG\n").status == 200
        lines = server.get("/batch/match", "POST", b"k\tCwVG\n", Content_Type="text/plain")
        assert lines.status == 200
    finally:
        for slow in there:
            slow.close()


def test_too_many_at_once(program: Program, tmp_path: Path) -> None:
    """Of one client, which has a quarter of a thousand. The others are turned away, and may come again."""
    with serving(
        program.path, EXAMPLES, tmp_path / "log", "--workers", 1, "--time-limit", 4
    ) as server:
        with socket.create_connection(("127.0.0.1", server.port)) as stream:
            head = request(
                server,
                "POST /batch/match HTTP/1.1",
                "Content-Type: text/plain",
                "Content-Length: 99",
            )
            stream.sendall(head + b"CwVG\n")
            assert b"200" in stream.recv(1000)
            statuses = asyncio.run(_statuses(server, 600))
        assert statuses.count(503) >= 300 and set(statuses) <= {200, 503}
        assert is_well(server)


async def _statuses(server: Server, count: int) -> list[int]:
    """The statuses of requests that are all sent at once."""

    async def ask() -> int:
        reader, writer = await asyncio.open_connection("127.0.0.1", server.port)
        writer.write(request(server, f"GET {path_of('match', REFERENCE)} HTTP/1.1"))
        first = await reader.readline()
        writer.close()
        return int(first.split(b" ")[1])

    return await asyncio.gather(*(ask() for _ in range(count)))


@pytest.mark.parametrize(
    "host, shown, reached",
    [
        ("0.0.0.0", "127.0.0.1", ["127.0.0.1", "127.0.0.2"]),
        ("::", "[::1]", ["127.0.0.1", "127.0.0.2", "::1"]),
    ],
)
def test_all_addresses(
    host: str, shown: str, reached: list[str], program: Program, tmp_path: Path
) -> None:
    """It warns, prints one that can be opened, and is called by each at which it is reached, but by no other one."""
    with serving(program.path, EXAMPLES, tmp_path / "log", "--host", host) as server:
        assert "no login and no encryption" in server.log() and server.log().count("\n") == 1
        assert server.url == f"http://{shown}:{server.port}/"
        for address in reached:
            name = f"[{address}]" if ":" in address else address
            for own, statuses in ((name, {200}), ("10.9.8.7", {421}), ("evil.example", {421})):
                connection = http.client.HTTPConnection(address, server.port, timeout=600)
                origin = f"http://{own}:{server.port}"
                reply = reply_on(connection, "/health", Host=f"{own}:{server.port}", Origin=origin)
                assert reply.status in statuses
                connection.close()


def test_own_addresses_alone(program: Program, tmp_path: Path) -> None:
    """Nobody is warned of them."""
    with serving(program.path, EXAMPLES, tmp_path / "log") as server:
        assert server.log() == "" and server.url.startswith("http://127.0.0.1:")


LINE = re.compile(
    r"\d{4}-\d\d-\d\dT\d\d:\d\d:\d\d\.\d{3}[+-]\d\d:\d\d olr-tools: 127\.0\.0\.1 (\S+ \S+ \d+), \d+\.\d ms, (\S+)"
)
"""A line for a request: the time, the client, the method, the address, the status, how long it took, and its name."""


def test_what_is_logged(program: Program, tmp_path: Path) -> None:
    """A line for each request if that is asked for, in which nothing is from the request but the address and its name. What isn't HTTP has one too."""
    with serving(program.path, EXAMPLES, tmp_path / "log", "--log", "requests") as server:
        refused = server.get("/match?ref=%0aolr-tools:%20secret", X_Request_Id="a b")
        server.get("/secret%0asecret", X_Request_Id="mine")
        said_to(server, b"nonsense\r\n\r\n")
        server.get("/match?ref=" + "A" * 9000)
        wait_until(lambda: server.log().count("\n") == 4)
        found = [LINE.fullmatch(line) for line in server.log().splitlines()]
        said = [line[1] for line in found if line]
        assert said == ["GET /match 422", "GET other 404", "- other 400", "- other 414"]
        names = [line[2] for line in found if line]
        assert names == [refused.headers["x-request-id"], "mine", "-", "-"]
        assert server.figure('olr_requests_total{address="other",status="414"}') == 1


def test_how_much_is_logged(program: Program, tmp_path: Path) -> None:
    """Thirty lines a minute of one client and cause, and how many there were besides, at the end if it ends before."""
    errors = tmp_path / "log"
    with serving(program.path, EXAMPLES, errors, "--log", "requests") as server:
        connection = server.connection()
        for _ in range(50):
            reply_on(connection, "/match?ref=x")
        connection.close()
        server.get("/show?ref=x")
        wait_until(lambda: "/show" in server.log())
        assert server.log().count("GET /match 422") == 30
    assert "20 more lines like this one: 127.0.0.1 GET /match 422, " in errors.read_text()
