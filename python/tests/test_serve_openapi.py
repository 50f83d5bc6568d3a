"""The OpenAPI document of `olr-tools serve`: it is one by the schema of OpenAPI itself, and answers have what its schemas say, and nothing else."""

import json
import pytest
import re
import shutil
import yaml
from collections import Counter
from collections.abc import Iterator
from jsonschema import Draft4Validator, RefResolver
from jsonschema.validators import extend
from pathlib import Path
from typing import Any, cast

from bad_programs import bad_program
from conftest import REFERENCE, TOP, Program
from olr.model.questions import NUMBERS
from olr.serving.addresses import Service, Shared, application
from olr.serving.limits import Limits
from olr.serving.makers import Makers
from olr.serving.meters import Meters
from olr.serving.openapi import document
from olr.serving.schemas import OF_QUESTION, examples
from olr.serving.served import Served
from servers import Reply, Server, path_of, serving, wait_until

OPENAPI = Path("/usr/share/openapi-specification/schemas/v3.0")
KIOSK, FAR, DAMAGED = "KwVGnCN20HPDBwFCATFjT5Y=", "CwVGnSN2zhtnBgEB/2IjAQ==", "CwVG"
LINES = "\n".join(f"{one}\t{one}" for one in (REFERENCE, KIOSK, FAR, DAMAGED)).encode()
OWN = {"/", "/docs", "/openapi.json"}
Json = dict[str, Any]


def nullable(validator: Any, kind: str, value: object, schema: Json) -> Iterator[Any]:
    """A type of OpenAPI 3.0, which may say that a value may be null too."""
    if value is not None or not schema.get("nullable"):
        yield from Draft4Validator.VALIDATORS["type"](validator, kind, value, schema)


Validator = extend(Draft4Validator, {"type": nullable})


class Document:
    """The document of a server, by which its answers are read."""

    def __init__(self, about: Json) -> None:
        self.about = about
        self._resolver = RefResolver("", about)
        self.seen: set[tuple[str, str, str]] = set()
        """The addresses, methods and statuses that were read."""

    def require(self, value: object, schema: Json) -> None:
        """Fails if a value isn't what a schema says."""
        Validator(schema, resolver=self._resolver).validate(value)

    def is_right(self, value: object, schema: Json) -> bool:
        """Whether a value is what a schema says."""
        return bool(Validator(schema, resolver=self._resolver).is_valid(value))

    def read(self, path: str, method: str, reply: Reply) -> None:
        """Reads an answer."""
        address = path.partition("?")[0]
        responses = self.about["paths"][address][method.lower()]["responses"]
        status = str(reply.status) if str(reply.status) in responses else "default"
        content = responses[status]["content"][reply.headers["content-type"]]
        text = reply.body.decode()
        if "json" not in reply.headers["content-type"]:
            self.require(text, content["schema"])
        elif "x-item-schema" in content:
            *lines, end = text.split("\n")
            assert lines and not end
            for line in lines:
                self.require(json.loads(line.lstrip("\x1e")), content["x-item-schema"])
        else:
            self.require(json.loads(text), content["schema"])
        self.seen.add((address, method.lower(), status))

    def status_of(self, path: str, method: str, reply: Reply) -> int:
        """The status of an answer, which is one of those of its address, and is read by its own schema."""
        self.read(path, method, reply)
        assert (path.partition("?")[0], method.lower(), str(reply.status)) in self.seen
        return reply.status


@pytest.fixture(scope="module")
def server(program: Program, tmp_path_factory: pytest.TempPathFactory) -> Iterator[Server]:
    """A server on the town of the examples."""
    log = tmp_path_factory.mktemp("log") / "log"
    with serving(program.path, TOP / "examples", log, "--body-limit", 1) as found:
        yield found


@pytest.fixture(scope="module")
def described(server: Server) -> Document:
    """Its document."""
    return Document(json.loads(server.get("/openapi.json").body))


def test_it_is_a_document_of_openapi(described: Document) -> None:
    # Debian 12 has schema.json, and Debian 13 the same as schema.yaml.
    schema = yaml.safe_load(next(OPENAPI.glob("schema.*")).read_text())
    Draft4Validator(schema).validate(described.about)
    operations = [
        one["operationId"]
        for methods in described.about["paths"].values()
        for one in methods.values()
    ]
    assert len(operations) == len(set(operations))
    assert all(re.fullmatch("[a-z]+([A-Z][a-z]*)*", one) for one in operations)
    for found in described.about["components"]["schemas"].values():
        Validator.check_schema(found)


def test_all_addresses_are_in_it(described: Document) -> None:
    limits = Limits()
    shared = Shared.of(limits, Makers(limits))
    service = Service(cast(Served, None), limits, Meters(Counter), shared)
    paths = set(application(service).paths)
    assert {it for it in paths - OWN if not it.startswith("/assets/")} == set(
        described.about["paths"]
    )


def test_bodies_may_be_too_slow_or_too_long(described: Document) -> None:
    posts = [it["post"]["responses"] for it in described.about["paths"].values() if "post" in it]
    assert len(posts) == 10 and all({"408", "413"} <= it.keys() for it in posts)


def test_examples(described: Document) -> None:
    """Those of the program's answers are those of the specification."""
    pages = "".join(file.read_text() for file in (TOP / "docs/specification").glob("*.md"))
    schemas = described.about["components"]["schemas"]
    for name, example in examples().items():
        described.require(example, schemas[name])
    for name in {it.__name__ for it in OF_QUESTION.values()} | {"Reference"}:
        assert json.dumps(examples()[name], separators=(",", ":")) in pages


@pytest.mark.parametrize("what", NUMBERS)
def test_answers(what: str, server: Server, described: Document) -> None:
    """Also of a point along a line, of what fits nowhere, and refusals."""
    for text in (REFERENCE, KIOSK, FAR, DAMAGED):
        for radius in (1, 100):
            path = path_of(what, text, radius=radius)
            described.read(path, "GET", server.get(path))
            if what in ("match", "places"):
                as_geojson = server.get(path, Accept="application/geo+json")
                described.read(path, "GET", as_geojson)
        path = path_of(what, text, shape="true")
        described.read(path, "GET", server.get(path))
    for path in (f"/{what}", path_of(what, REFERENCE, radius=0)):
        described.read(path, "GET", server.get(path))
    described.read(f"/{what}", "GET", server.get(f"/{what}", Origin="https://evil.example"))
    seen = {status for path, _, status in described.seen if path == f"/{what}"}
    assert seen == {"200", "400", "422", "default"}


@pytest.mark.parametrize("what", NUMBERS)
def test_questions_as_json(what: str, server: Server, described: Document) -> None:
    """What is posted is what the document says, and so is what is answered."""
    content = described.about["paths"][f"/{what}"]["post"]["requestBody"]["content"]
    for body in (
        {"ref": REFERENCE, "radius": 50},
        {"ref": DAMAGED},
        {"refs": [REFERENCE, DAMAGED], "profile": "feed"},
        [KIOSK, FAR],
        {"ref": REFERENCE, "radius": 0},
        {"ref": REFERENCE, "x": 1},
        ["x"] * 101,
    ):
        for accept in ("*/*", "application/geo+json", "application/geo+json-seq"):
            headers = {"Content_Type": "application/json", "Accept": accept}
            reply = server.get(f"/{what}", "POST", json.dumps(body), **headers)
            described.read(f"/{what}", "POST", reply)
            schema = content["application/json"]["schema"]
            assert described.is_right(body, schema) == (reply.status != 400), body


@pytest.mark.parametrize("address", [*(f"/batch/{what}" for what in NUMBERS), "/rows", "/messages"])
def test_lines(address: str, server: Server, described: Document) -> None:
    kind = "application/octet-stream"
    for body, headers in (
        (LINES, {"Content_Type": kind}),
        (b"?" * (1 << 21), {"Content_Type": kind}),
        (LINES, {"Content_Type": "text/html"}),
        (b"", {"Content_Type": kind}),
    ):
        reply = server.get(address, "POST", body, **headers)
        if reply.body:
            described.read(address, "POST", reply)
    described.read(address, "POST", server.get(f"{address}?x=1", "POST", LINES, Content_Type=kind))
    seen = {status for path, _, status in described.seen if path == address}
    assert {"200", "400", "413"} <= seen


@pytest.mark.parametrize("text", [REFERENCE, KIOSK, FAR, DAMAGED])
def test_what_a_page_asks(text: str, server: Server, described: Document) -> None:
    for path in (path_of("show", text), path_of("scene", text), path_of("scene", text, radius=1)):
        described.read(path, "GET", server.get(path))


def test_what_is_said_of_the_server(server: Server, described: Document) -> None:
    for path in ("/health", "/ready", "/maps", "/metrics"):
        described.read(path, "GET", server.get(path))


@pytest.mark.parametrize("way, seconds, status", [("exits", 30, 503), ("hangs", 0.5, 504)])
def test_a_program_that_fails(
    way: str, seconds: float, status: int, program: Program, described: Document, tmp_path: Path
) -> None:
    bad = bad_program(tmp_path / "bad", program, {REFERENCE: way})
    options = ("--time-limit", seconds)
    with serving(bad, TOP / "examples", tmp_path / "log", *options) as server:
        for what in (*NUMBERS, "scene"):
            path = path_of(what, REFERENCE)
            assert described.status_of(path, "GET", server.get(path)) == status
        for what in NUMBERS:
            kind, body = "application/json", json.dumps({"ref": REFERENCE})
            reply = server.get(f"/{what}", "POST", body, Content_Type=kind)
            assert described.status_of(f"/{what}", "POST", reply) == status
        for path in (*(f"/batch/{what}" for what in NUMBERS), "/rows"):
            reply = server.get(path, "POST", REFERENCE, Content_Type="text/plain")
            assert described.status_of(path, "POST", reply) == status


def test_files_that_have_changed(program: Program, described: Document, tmp_path: Path) -> None:
    folder = shutil.copytree(TOP / "examples", tmp_path / "map")
    with serving(program.path, folder, tmp_path / "log") as server:
        (folder / "lines.csv").write_text("")
        wait_until(lambda: server.get("/ready").status == 503)
        assert described.status_of("/ready", "GET", server.get("/ready")) == 503


def test_members_that_arent_there_are_seen(described: Document) -> None:
    """So that a new one is put into the schemas, or an old one isn't forgotten."""
    page = examples()["Page"]
    schema = described.about["components"]["schemas"]["Page"]
    for other in ({**page, "new": 1}, {"next": None}, {**page, "matchings": None}):
        assert not described.is_right(other, schema)


def test_where_its_addresses_begin() -> None:
    assert document(Limits())["servers"] == [{"url": "/"}]
    assert document(Limits(), "/olr")["servers"] == [{"url": "/olr"}]
