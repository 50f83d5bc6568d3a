"""`olr-tools serve` behind nginx, as docs/SERVE.md shows it: at another port, and below a path."""

import http.client
import json
import pytest
import re
import socket
import subprocess
from base64 import b64encode
from collections.abc import Iterator
from html.parser import HTMLParser
from pathlib import Path
from typing import NamedTuple
from urllib.parse import urldefrag, urljoin, urlsplit

from conftest import REFERENCE, TOP, Program
from olr.serving.front import path_below
from olr.serving.peers import MOST_PREFIX, Peers
from servers import SECONDS, Reply, Server, expected_of, path_of, reply_on, serving, wait_until

LOGIN = {"Authorization": f"Basic {b64encode(b'me:secret').decode()}"}
LINES = f"1\t{REFERENCE}\n2\tCwVG\n" * 500


class Behind(NamedTuple):
    """nginx in front of a server."""

    port: int
    server: Server

    def get(self, url: str, method: str = "GET", body: str | None = None, **headers: str) -> Reply:
        """The answer to a request for a URL, or for a path."""
        found = urlsplit(url)
        path = f"{found.path}?{found.query}" if found.query else found.path
        front = Server(self.server.process, self.server.errors, f"http://127.0.0.1:{self.port}/")
        named = {"Host": f"olr.example:{self.port}", **LOGIN, **headers}
        return front.get(path, method, body, **named)

    @property
    def url(self) -> str:
        """Where its addresses begin."""
        return f"http://olr.example:{self.port}/olr/"


def free_port() -> int:
    """A port at which nobody listens."""
    with socket.socket() as one:
        one.bind(("127.0.0.1", 0))
        found: int = one.getsockname()[1]
        return found


def sample_of(page: Path) -> str:
    """The sample for nginx on a page."""
    (found,) = re.findall(r"(?m)^    server \{\n(?:     .*\n)+    \}\n", page.read_text())
    return str(found)


def configured(folder: Path, port: int, behind: int) -> Path:
    """The page's own sample in a configuration: at that port without encryption, and below a path."""
    sample = sample_of(TOP / "docs/SERVE.md")
    for text, into in (
        (r"listen 443 ssl;", f"listen 127.0.0.1:{port};"),
        (r"ssl_\w+ .*;", ""),
        (r"/etc/nginx/olr.htpasswd", f"{folder}/htpasswd"),
        (r"location /", "location /olr/"),
        (r"127.0.0.1:8000", f"127.0.0.1:{behind}"),
    ):
        sample, count = re.subn(text, into, sample)
        assert count
    (folder / "htpasswd").write_text("me:{PLAIN}secret\n")
    kinds = ("client_body", "proxy", "fastcgi", "uwsgi", "scgi")
    paths = "".join(f"{kind}_temp_path {folder}/{kind};\n" for kind in kinds)
    file = folder / "nginx.conf"
    file.write_text(
        f"daemon off; master_process off; pid {folder}/pid; error_log {folder}/errors;\n"
        f"events {{}} http {{ access_log off;\n{paths}{sample} }}\n"
    )
    return file


@pytest.fixture(scope="module")
def behind(program: Program, tmp_path_factory: pytest.TempPathFactory) -> Iterator[Behind]:
    """A server on the example's town, behind nginx."""
    folder, port = tmp_path_factory.mktemp("nginx"), free_port()
    options = ["--root-path", "/olr", "--allow-host", f"olr.example:{port}"]
    options += ["--proxy", "127.0.0.1", "--log", "requests"]
    with serving(program.path, TOP / "examples", folder / "log", *options) as server:
        file = configured(folder, port, server.port)
        command = ["/usr/sbin/nginx", "-e", f"{folder}/errors", "-c", str(file)]
        with subprocess.Popen(command) as nginx:
            try:
                wait_until(lambda: nginx.poll() is not None or (folder / "pid").exists())
                assert nginx.poll() is None, (folder / "errors").read_text()
                yield Behind(port, server)
            finally:
                nginx.terminate()


class Links(HTMLParser):
    """What a page leads to and loads, and the marks that it has."""

    def __init__(self, page: bytes) -> None:
        super().__init__()
        self.links: list[str] = []
        self.marks: list[str] = []
        self.feed(page.decode())

    def handle_starttag(self, tag: str, attrs: list[tuple[str, str | None]]) -> None:
        """Notes them."""
        for name, value in attrs:
            if name in ("href", "src") and value is not None and not value.startswith("data:"):
                self.links.append(value)
            elif name == "id" and value is not None:
                self.marks.append(value)


def test_a_login_is_asked_for(behind: Behind) -> None:
    assert behind.get("/olr/", Authorization="").status == 401
    assert behind.get("/olr/metrics").status == 403


@pytest.mark.parametrize("page", ["", "docs"])
def test_links_of_pages(page: str, behind: Behind) -> None:
    """All of them lead somewhere."""
    url = urljoin(behind.url, page)
    reply = behind.get(url)
    assert reply.status == 200
    links = {urldefrag(urljoin(url, link)).url for link in Links(reply.body).links}
    assert len(links) > 1
    for link in links:
        assert link.startswith(behind.url) and behind.get(link).status == 200, link


def test_scripts_ask_by_relative_addresses() -> None:
    for file in (TOP / "python/olr/serving/assets").glob("*.js"):
        assert not re.search(
            r"""(asked|askedJson|fetch|href =)\(? ?["'`]/""", file.read_text()
        ), file


def test_answers(behind: Behind, program: Program) -> None:
    """Those of the program, also to long bodies, and to a page of this site."""
    for what in ("match", "places"):
        (expected,) = expected_of(program, TOP / "examples", what, [REFERENCE])
        assert expected.agrees(behind.get(f"/olr{path_of(what, REFERENCE)}"))
    own = {"Origin": f"https://olr.example:{behind.port}", "Content_Type": "text/plain"}
    reply = behind.get("/olr/batch/match", "POST", LINES, **own)
    assert (
        reply.body
        == behind.server.get("/batch/match", "POST", LINES, Content_Type="text/plain").body
    )
    assert reply.status == 200 and reply.body.count(b"\n") == 1000
    other = {**own, "Origin": f"https://olr.example:{behind.port + 1}"}
    assert behind.get("/olr/batch/match", "POST", LINES, **other).status == 403


@pytest.mark.parametrize("path", ["match?ref=CwVG", "match", "nothing/there", "batch/match"])
def test_types_of_problems_lead_to_a_page(path: str, behind: Behind) -> None:
    url = urljoin(behind.url, path)
    about = json.loads(behind.get(url).body)
    page, mark = urldefrag(urljoin(url, about["type"]))
    assert page == f"{behind.url}docs" and mark == about["title"]
    assert mark in Links(behind.get(page).body).marks


def test_the_document_says_where_addresses_begin(behind: Behind) -> None:
    found = json.loads(behind.get("/olr/openapi.json").body)
    assert found["servers"] == [{"url": "/olr"}]
    assert behind.get(f"{found['servers'][0]['url']}/show?ref={REFERENCE}").status == 200


def test_a_path_that_is_passed_on(behind: Behind) -> None:
    """A server in front may take the path off, or not. What isn't HTTP has a problem too."""
    for path in ("/show", "/olr/show"):
        assert behind.server.get(f"{path}?ref={REFERENCE}").status == 200
    assert behind.server.figure('olr_requests_total{address="/show",status="200"}') >= 2
    refused = behind.server.get(f"/show?ref={'x' * 9000}")
    assert (refused.status, json.loads(refused.body)["type"]) == (414, "/olr/docs#URITooLong")


@pytest.mark.parametrize(
    "path, below",
    [("/olr/match", "/match"), ("/match", "/match"), ("/olrmatch", "/olrmatch"), ("/olr", "/olr")],
)
def test_paths(path: str, below: str) -> None:
    assert path_below("/olr", path) == below and path_below("", path) == path


@pytest.mark.parametrize(
    "root, path, below",
    [
        ("", "//match", "/match"),
        ("", "///", "/"),
        ("", "/match//", "/match//"),
        ("/olr", "//match", "/match"),
        ("/olr", "/olr//match", "/match"),
        ("/olr", "//olr/match", "/match"),
    ],
)
def test_slashes_at_a_beginning(root: str, path: str, below: str) -> None:
    """Who appends an address to the URL that is printed has two."""
    assert path_below(root, path) == below


def test_an_address_behind_the_url_that_is_printed(behind: Behind) -> None:
    """It answers, and what a server in front refuses is refused."""
    address = f"/show?ref={REFERENCE}"
    for url in (behind.server.url, f"{behind.server.url}olr/"):
        found = urlsplit(url + address)
        assert found.path.endswith("//show")
        reply = behind.server.get(f"{found.path}?{found.query}")
        assert (reply.status, reply.body) == (200, behind.get(f"/olr{address}").body)
    assert behind.get("/olr//metrics").status == 403


def test_clients_are_told_apart(behind: Behind) -> None:
    """Each has a part of what the server does at once, by the address that nginx says, whatever it says itself."""
    for address in ("127.0.0.2", "127.0.0.3"):
        connection = http.client.HTTPConnection("127.0.0.1", behind.port, SECONDS, (address, 0))
        headers = {"Host": f"olr.example:{behind.port}", "X-Forwarded-For": "192.0.2.7", **LOGIN}
        reply = reply_on(
            connection, "/olr/show?ref=x", "GET", None, X_Request_Id=address, **headers
        )
        connection.close()
        assert reply.status == 422
        said = rf"(?m) {re.escape(address)} GET /show 422, .* ms, {re.escape(address)}$"
        wait_until(lambda: bool(re.search(said, behind.server.log())))


@pytest.mark.parametrize(
    "said, prefix",
    [
        (["/maps/olr"], "/maps/olr"),
        (["/theirs", "/own"], "/own"),
        (["/" + "x" * (MOST_PREFIX - 1)], "/" + "x" * (MOST_PREFIX - 1)),
        (["/" + "x" * MOST_PREFIX], None),
        ([], None),
        ([""], None),
        (["/"], None),
        (["maps"], None),
        (["//evil.example"], None),
        (["/maps/"], None),
        (["/maps/.."], None),
        (["/a, /b"], None),
        (["/<b>"], None),
        (["/olr\n"], None),
    ],
)
def test_prefixes(said: list[str], prefix: str | None) -> None:
    """The last one, if it is a plain path."""
    fields = [(b"x-forwarded-prefix", text.encode()) for text in said]
    assert Peers().prefix_before([(b"host", b"x"), *fields]) == prefix


def test_a_path_that_a_proxy_says(behind: Behind, program: Program, tmp_path: Path) -> None:
    """For that request. Of others none is believed, and nginx drops those of its clients."""
    for prefix, expected in (("/maps", "/maps"), ("//evil.example", "/olr")):
        said = {"X_Forwarded_Prefix": prefix}
        found = json.loads(behind.server.get("/openapi.json", **said).body)
        assert found["servers"] == [{"url": expected}]
        for path, headers in (
            (f"{expected}/match", said),
            ("/show", said | {"Upgrade": "x", "Connection": "upgrade"}),
        ):
            refused = json.loads(behind.server.get(path, **headers).body)
            assert refused["type"] == f"{expected}/docs#BadRequest"
        assert json.loads(behind.get("/olr/openapi.json", **said).body)["servers"] == [
            {"url": "/olr"}
        ]
    with serving(program.path, TOP / "examples", tmp_path / "log") as server:
        found = json.loads(server.get("/openapi.json", X_Forwarded_Prefix="/maps").body)
        assert found["servers"] == [{"url": "/"}]
