"""`POST /rows` of `olr-tools serve`: the rows of `olr-tools match --places` of the likeliest places, while the body comes."""

import json
import pytest
import socket
import time
from collections.abc import Callable, Iterator
from functools import cache
from pathlib import Path
from typing import Any, NamedTuple

from asking import likeliest_of
from bad_programs import bad_program
from conftest import REFERENCE, Program, Tools
from olr.asking.program import SHIPPED
from runs import Town
from servers import Server, serving, started, wait_until

LINES = {"Content_Type": "text/plain"}
COLUMNS = [
    "record",
    "key",
    "verdict",
    "probability",
    "none_of_these",
    "reasons",
    "total",
    "margin",
    "turns_back",
    "cut_off",
    "fault",
    "no_probabilities",
]
NUMBERS = ("probability", "none_of_these", "total", "margin", "turns_back")


@pytest.fixture(scope="module", params=["folder", "store"])
def server(
    request: pytest.FixtureRequest,
    program: Program,
    town: Town,
    tmp_path_factory: pytest.TempPathFactory,
) -> Iterator[Server]:
    """A server on a drawn map."""
    folder = town.folder if request.param == "folder" else town.store
    with serving(program.path, folder, tmp_path_factory.mktemp("log") / "log") as found:
        yield found


def rows_of(server: Server, body: Any, query: str = "") -> list[dict[str, Any]]:
    """The rows of a body."""
    reply = server.get(f"/rows{query}", "POST", body, **LINES)
    assert reply.status == 200 and reply.headers["content-type"] == "application/x-ndjson"
    rows = [json.loads(line) for line in reply.body.splitlines()]
    assert all(list(row) == COLUMNS for row in rows)
    return rows


Wanted = Callable[[str], list[dict[str, str]]]


@pytest.fixture(scope="module")
def sixty(town: Town) -> bytes:
    """Sixty messages."""
    return b"".join(town.plain.read_bytes().splitlines(keepends=True)[:60])


@pytest.fixture(scope="module")
def wanted_of(
    sixty: bytes, town: Town, tools: Tools, tmp_path_factory: pytest.TempPathFactory
) -> Wanted:
    """What `olr-tools match` says of them by a profile: once for both servers."""
    file = tmp_path_factory.mktemp("messages") / "messages.tsv"
    file.write_bytes(sixty)
    return cache(lambda profile: likeliest_of(tools, file, town.folder, "--profile", profile))


@pytest.mark.parametrize("profile", ["feed", "program"])
def test_rows_of_match(profile: str, server: Server, sixty: bytes, wanted_of: Wanted) -> None:
    """Without options they are those of the profile `feed`."""
    rows = rows_of(server, sixty, "?profile=program" if profile == "program" else "")
    for row, wanted in zip(rows, wanted_of(profile), strict=True):
        for name in ("record", "key", "verdict", "reasons", "fault"):
            assert str(row[name] or "") == wanted[name], wanted
        for name in NUMBERS:
            assert row[name] == (json.loads(wanted[name]) if wanted[name] else None), wanted
    has_probabilities = any(row["probability"] is not None for row in rows)
    assert has_probabilities == (profile == "feed")
    answered = [row for row in rows if row["verdict"] != "fault"]
    assert {row["no_probabilities"] is None for row in answered} == {profile == "feed"}
    some = b"".join(sixty.splitlines(keepends=True)[:20])
    pieces = (some[at : at + 300] for at in range(0, len(some), 300))
    assert rows_of(server, pieces, f"?profile={profile}") == rows[:20]


def test_records_of_each_kind(server: Server, program: Program, town: Town) -> None:
    """Keys, faults and the numbers of records are those of the program's lines."""
    records = b"\n".join(town.messages.read_bytes().split(b"\n")[:40])
    records += b"\n\r\n" + REFERENCE.encode() + b"\r\n" + b"k\t" + b"x" * 70_000 + b"\n\tlast"
    reply = server.get("/batch/places", "POST", records, **LINES)
    lines = [json.loads(line) for line in reply.body.splitlines()]
    rows = rows_of(server, records, "?profile=program")
    names = ("record", "key", "fault")
    assert [[row[it] for it in names] for row in rows] == [
        [one[it] for it in names] for one in lines
    ]
    assert {"LongRecord", "NotText"} <= {row["fault"] for row in rows}
    verdicts = ["fault" if one["fault"] else one["answer"]["verdict"] for one in lines]
    assert [row["verdict"] for row in rows] == verdicts


def test_what_is_refused(server: Server) -> None:
    for query, said in (
        ("?radius=0", "radius is a whole number"),
        ("?page=2", "'page' is no option"),
        ("?profile=x", "'x' is no profile"),
    ):
        status, title, detail = server.get(f"/rows{query}", "POST", b"x\n", **LINES).problem()
        assert (status, title) == (400, "BadRequest") and detail.startswith(said)
    assert server.get("/rows", "POST", b"x\n").problem()[:2] == (415, "UnsupportedMediaType")
    assert server.get("/rows").problem()[:2] == (405, "MethodNotAllowed")
    assert rows_of(server, b"") == [] == rows_of(server, b"\n\r\n")


def test_rows_come_while_the_body_does(server: Server) -> None:
    """Each record is sent when the one before it was answered."""
    head = f"POST /rows HTTP/1.1\r\nHost: localhost:{server.port}\r\nContent-Type: text/plain\r\n"
    with socket.create_connection(("127.0.0.1", server.port), timeout=600) as connection:
        stream = connection.makefile("rb")
        connection.sendall(f"{head}Transfer-Encoding: chunked\r\n\r\n".encode())
        for number in range(1, 4):
            record = f"{number}\t{REFERENCE}\n".encode()
            connection.sendall(b"%x\r\n%b\r\n" % (len(record), record))
            while b'{"record":%d,' % number not in (line := stream.readline()):
                assert line
        connection.sendall(b"0\r\n\r\n")
        assert stream.readline() == b"\r\n" and stream.readline() == b"0\r\n"


def test_a_body_that_is_too_long(program: Program, town: Town, tmp_path: Path) -> None:
    with serving(program.path, town.folder, tmp_path / "log", "--body-limit", 1) as server:
        refused = server.get("/rows", "POST", b"x\n" * 600_000, **LINES)
        assert refused.problem()[:2] == (413, "BodyTooLarge")


def test_a_client_that_stops_reading(program: Program, town: Town, tmp_path: Path) -> None:
    """Its body isn't read on, and the memory of the server stays as it is."""
    texts = [line for line in town.plain.read_bytes().splitlines(keepends=True) if line.isascii()]
    records = b"CwVG\n" * 2_000_000
    with serving(program.path, town.folder, tmp_path / "log", begin=started) as server:
        rows_of(server, b"".join(texts))
        before = server.memory()
        head = (
            f"POST /rows HTTP/1.1\r\nHost: localhost:{server.port}\r\nContent-Type: text/plain\r\n"
        )
        with socket.socket() as connection:
            # The system holds few rows for it.
            connection.setsockopt(socket.SOL_SOCKET, socket.SO_RCVBUF, 4096)
            connection.connect(("127.0.0.1", server.port))
            connection.sendall(f"{head}Content-Length: {len(records)}\r\n\r\n".encode())
            connection.setblocking(False)
            sent, since = 0, time.monotonic()
            while time.monotonic() - since < 3 and sent < len(records):
                try:
                    sent += connection.send(records[sent : sent + 65_536])
                    since = time.monotonic()
                except BlockingIOError:
                    time.sleep(0.01)
            assert sent < len(records), "all of it was read"
            assert server.memory() - before < 30_000
            assert server.get(f"/match?ref={REFERENCE}").status in (200, 422)
        wait_until(lambda: server.figure('olr_processes{state="working"}') == 0)


WAYS = ("exits", "ends", "no line", "another number", "another key", "an empty line")
"""What the program does at a reference."""


class Failing(NamedTuple):
    """A server whose program fails at a reference of each way."""

    server: Server
    bodies: dict[str, bytes]
    """Four records for each way, of which it is the third one's."""
    good: dict[str, list[dict[str, Any]]]
    """The rows of a program that doesn't fail."""


@pytest.fixture(scope="module")
def failing(
    program: Program, town: Town, tmp_path_factory: pytest.TempPathFactory
) -> Iterator[Failing]:
    """It starts another process where one ended, so one server is enough for all ways."""
    folder = tmp_path_factory.mktemp("failing")
    lines = town.plain.read_text().splitlines()[1 : 1 + 4 * len(WAYS)]
    texts = {
        way: [line.split("\t")[1] for line in lines[at :: len(WAYS)]] for at, way in enumerate(WAYS)
    }
    bad = bad_program(folder / "bad", program, {texts[way][2]: way for way in WAYS})
    bodies = {
        way: "".join(f"{number}\t{text}\n" for number, text in enumerate(texts[way])).encode()
        for way in WAYS
    }
    with serving(program.path, town.folder, folder / "good") as server:
        good = {way: rows_of(server, body) for way, body in bodies.items()}
    with serving(bad, town.folder, folder / "log") as server:
        yield Failing(server, bodies, good)
        assert "Traceback" not in server.log()


@pytest.mark.parametrize("way", WAYS)
def test_a_program_that_fails(way: str, failing: Failing, town: Town) -> None:
    """Nothing is sent that isn't right, and the answer has no end."""
    server, body, good = failing.server, failing.bodies[way], failing.good[way]
    head = f"POST /rows HTTP/1.1\r\nHost: localhost:{server.port}\r\nContent-Type: text/plain\r\n"
    with socket.create_connection(("127.0.0.1", server.port), timeout=600) as connection:
        connection.sendall(f"{head}Content-Length: {len(body)}\r\n\r\n".encode() + body)
        said = b"".join(iter(lambda: connection.recv(65_536), b""))
    rows = [json.loads(line) for line in said.splitlines() if line.startswith(b'{"record"')]
    assert rows == good[: len(rows)] and len(rows) < 4
    assert len(rows) == 2 or way not in ("exits", "ends")
    assert not said.endswith(b"0\r\n\r\n")
    assert str(town.folder.parent).encode() not in said and b"failing" not in said


def test_a_program_that_hangs(program: Program, town: Town, tmp_path: Path) -> None:
    texts = [line.split("\t")[1] for line in town.plain.read_text().splitlines()[1:5]]
    bad = bad_program(tmp_path / "bad", program, {texts[0]: "hangs"})
    body = "".join(f"{text}\n" for text in texts).encode()
    with serving(bad, town.folder, tmp_path / "log", "--time-limit", 2) as server:
        refused = server.get("/rows", "POST", body, **LINES)
        assert refused.problem()[:2] == (504, "TimedOut")
        wait_until(lambda: server.figure('olr_processes{state="working"}') == 0)


def test_a_confidence_of_ones_own(
    program: Program, town: Town, tools: Tools, tmp_path: Path
) -> None:
    """`--confidence` names one, which is for other tolerances here."""
    own = json.loads(SHIPPED.read_text())
    file = tmp_path / "own.json"
    own["tolerances"]["radius"] = 60
    file.write_text(json.dumps(own))
    messages = tmp_path / "messages.tsv"
    messages.write_bytes(b"".join(town.plain.read_bytes().splitlines(keepends=True)[:20]))
    words = ("--radius", 60, "--confidence", file)
    expected = likeliest_of(tools, messages, town.folder, *words)
    with serving(program.path, town.folder, tmp_path / "log", "--confidence", file) as server:
        rows = rows_of(server, messages.read_bytes(), "?radius=60")
        given = [json.loads(one["probability"] or "null") for one in expected]
        assert [row["probability"] for row in rows] == given and any(given)
        other = rows_of(server, messages.read_bytes())
        assert {row["probability"] for row in other} == {None}
        notes = [row["no_probabilities"] for row in other if row["verdict"] != "fault"]
        assert all(note.startswith("no probabilities: radius is 75, not 60") for note in notes)
