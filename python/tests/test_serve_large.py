"""Answers of `olr-tools serve` that are too large, or that their clients don't take."""

import http.client
import pytest
import socket
from collections.abc import Iterator
from pathlib import Path

from asking import draw_map
from olr.serving.connections import ESTABLISHED
from servers import Server, serving, started, wait_until


@pytest.fixture(scope="module")
def drawn(tmp_path_factory: pytest.TempPathFactory) -> Path:
    """A drawn map."""
    return draw_map(tmp_path_factory.mktemp("drawn"))


def writing_program(file: Path) -> Path:
    """Writes a program that answers with so many KiB as the reference says, or with a fault."""
    file.write_text(
        r"""#!/usr/bin/python3 -IS
import sys
for number, record in enumerate(sys.stdin.buffer, 1):
    text = record.decode().split(" -- ")[1].strip()
    end = '"key":"%d","record":%d}' % (number, number)
    if text.isdigit():
        print('{"answer":{"":"' + "x" * (int(text) << 10) + '"},"fault":null,' + end, flush=True)
    else:
        print('{"answer":null,"fault":"Empty",' + end, flush=True)
"""
    )
    file.chmod(0o755)
    return file


@pytest.fixture
def server(drawn: Path, tmp_path: Path) -> Iterator[Server]:
    """A server with that program, a process of its own for each test: its memory is looked at, and what one test leaves there counts."""
    program = writing_program(tmp_path / "program")
    with serving(program, drawn, tmp_path / "log", "--workers", 1, begin=started) as found:
        yield found


def test_an_answer_that_is_too_large(server: Server) -> None:
    """It isn't held: its process is ended, and the next one answers."""
    assert server.get("/match?ref=40000").problem()[:2] == (422, "AnswerTooLarge")
    assert server.get("/match?ref=x").problem()[:2] == (422, "Empty")
    assert len(server.get("/match?ref=20000").body) == (20_000 << 10) + 7
    one = server.get("/batch/match", "POST", b"40000\n", content_type="text/plain")
    assert one.problem()[:2] == (422, "AnswerTooLarge")
    with pytest.raises(http.client.IncompleteRead) as caught:
        server.get("/batch/match", "POST", b"x\n" * 5_000 + b"40000", content_type="text/plain")
    assert caught.value.partial.count(b"Empty") >= 1
    assert server.log().count("a stream was cut off: AnswerTooLarge") == 1
    assert server.memory() < 250_000


def asked(server: Server, path: str) -> tuple[socket.socket, bytes]:
    """A connection on which an answer isn't taken, but for its status."""
    connection = socket.create_connection(("127.0.0.1", server.port))
    connection.sendall(f"GET {path} HTTP/1.1\r\nHost: localhost:{server.port}\r\n\r\n".encode())
    return connection, connection.recv(12)[9:]


def test_the_system_keeps_nothing_of_an_answer(drawn: Path, tmp_path: Path) -> None:
    """Of one whose client was too slow: it would for as long as the client has the connection open."""
    program, options = writing_program(tmp_path / "program"), ("--workers", 1, "--time-limit", 1)
    with serving(program, drawn, tmp_path / "log", *options) as server:
        connection, status = asked(server, "/match?ref=16000")
        assert status == b"200" and is_open(connection)
        wait_until(lambda: not is_open(connection))
        connection.close()


def is_open(connection: socket.socket) -> bool:
    """Whether a connection wasn't closed by the other side, whatever came before."""
    return connection.getsockopt(socket.IPPROTO_TCP, socket.TCP_INFO, 1) == ESTABLISHED


@pytest.mark.parametrize(("size", "count"), [(1000, 150), (16_000, 8)])
def test_answers_that_arent_taken(size: int, count: int, server: Server) -> None:
    """The server holds some of them, and then closes connections: all of them would take 150 MB. Large ones are in files, of which a client
    has eight."""
    connections = []
    for _ in range(count):
        connection, status = asked(server, f"/match?ref={size}")
        assert status == b"200"
        connections.append(connection)
    wait_until(lambda: server.memory() < 140_000)
    assert server.get("/match?ref=x").status == 422
    if size > 1024:
        assert server.get(f"/match?ref={size}").problem()[:2] == (503, "Busy")
        connections.pop().close()
        wait_until(lambda: server.get(f"/match?ref={size}").status == 200)
    for connection in connections:
        connection.close()
