"""`olr-tools serve` when something fails: clients, processes, files, and the server itself."""

import asyncio
import http.client
import json
import os
import pytest
import random
import shutil
import signal
import socket
import threading
import time
from collections.abc import Callable, Iterator, Sequence
from contextlib import contextmanager
from pathlib import Path

from asking import draw_map, draw_references
from bad_programs import bad_program
from conftest import Program
from servers import (
    Expected,
    Reply,
    Server,
    ask_all,
    expected_of,
    is_running,
    path_of,
    reply_on,
    serving,
    started,
    wait_until,
)

GOOD = "CwVF/yN2yRpnBAFUAAgbpwYBAf9kK0Fa"
STREAM = "POST /batch/match HTTP/1.1\r\nHost: 127.0.0.1:{port}\r\nContent-Type: text/plain\r\n"


@pytest.fixture(scope="module")
def drawn(tmp_path_factory: pytest.TempPathFactory) -> Path:
    """A drawn map."""
    return draw_map(tmp_path_factory.mktemp("drawn"))


@pytest.fixture(scope="module")
def other(tmp_path_factory: pytest.TempPathFactory) -> Path:
    """Another one, with other ids."""
    return draw_map(tmp_path_factory.mktemp("other"), 1400, 2900)


@pytest.fixture(scope="module")
def texts(drawn: Path) -> list[str]:
    """References on the first one."""
    return draw_references(drawn, 400)


@pytest.fixture
def folder(drawn: Path, tmp_path: Path) -> Path:
    """A copy of the first one, which may be changed."""
    return Path(shutil.copytree(drawn, tmp_path / "map"))


@pytest.fixture
def server(program: Program, folder: Path, tmp_path: Path) -> Iterator[Server]:
    """A server on that copy."""
    with serving(program.path, folder, tmp_path / "log", "--time-limit", 20) as found:
        yield found


def whole(texts: Sequence[str]) -> list[str]:
    """References that aren't damaged."""
    return [text for number, text in enumerate(texts) if number % 9]


def stream_of(server: Server, length: int) -> socket.socket:
    """A connection on which the head of a stream was sent."""
    connection = socket.create_connection(("127.0.0.1", server.port), timeout=600)
    head = STREAM.format(port=server.port) + f"Content-Length: {length}\r\n\r\n"
    connection.sendall(head.encode())
    return connection


def test_a_client_that_stops_reading(
    program: Program, drawn: Path, tmp_path: Path, texts: list[str]
) -> None:
    """Its body isn't read on, the memory of the server stays as it is, and others are answered."""
    records = "".join(f"{text}\n" for text in whole(texts)).encode() * 2000
    with serving(program.path, drawn, tmp_path / "log", begin=started) as server:
        before = server.memory()
        with stream_of(server, len(records)) as connection:
            connection.setblocking(False)
            sent, since = 0, time.monotonic()
            while time.monotonic() - since < 1.5 and sent < len(records):
                try:
                    sent += connection.send(records[sent : sent + 65_536])
                    since = time.monotonic()
                except BlockingIOError:
                    time.sleep(0.01)
            assert sent < len(records), "all of it was read"
            assert server.memory() - before < 30_000
            assert server.get(path_of("match", GOOD)).status in (200, 422)
        wait_until(lambda: is_at_rest(server))


def is_at_rest(server: Server) -> bool:
    """Whether nothing is at work, or waits."""
    working = server.figure('olr_processes{state="working"}')
    return working == server.figure("olr_waiting_requests") == 0


@pytest.mark.parametrize("part", ["nothing", "half", "all"])
def test_a_client_that_goes(part: str, server: Server, texts: list[str]) -> None:
    """What it sent is asked no more."""
    records = "".join(f"{text}\n" for text in whole(texts)).encode()
    with stream_of(server, len(records)) as connection:
        size = {"nothing": 0, "half": len(records) // 2, "all": len(records)}[part]
        connection.sendall(records[:size])
    wait_until(lambda: is_at_rest(server))


@pytest.mark.parametrize("what", ["a page", "two pages", "a stream", "a stream and a page"])
def test_a_client_that_goes_while_its_process_works(
    what: str, program: Program, drawn: Path, tmp_path: Path, texts: list[str]
) -> None:
    """It is ended, which would work for long: also where nothing of the client is read meanwhile."""
    bad = bad_program(tmp_path / "bad", program, {texts[1]: "hangs"})
    with serving(bad, drawn, tmp_path / "log", "--time-limit", 600) as server:
        path = path_of("match", texts[1], after="0:1")
        page = f"GET {path} HTTP/1.1\r\nHost: 127.0.0.1:{server.port}\r\n\r\n"
        head = STREAM.format(port=server.port)
        stream = f"{head}Content-Length: {len(texts[1]) + 1}\r\n\r\n{texts[1]}\n"
        sent = {"a page": page, "two pages": page * 2, "a stream": stream}.get(what, stream + page)
        with socket.create_connection(("127.0.0.1", server.port)) as connection:
            connection.sendall(sent.encode())
            wait_until(lambda: server.figure('olr_processes{state="working"}') == 1)
        wait_until(lambda: is_at_rest(server))
        assert server.get(path_of("match", GOOD)).status in (200, 422)


def test_a_client_that_sends_half_a_body(
    program: Program, drawn: Path, tmp_path: Path, texts: list[str]
) -> None:
    """It is waited for as long as the limit says. What was answered was sent, and the end isn't."""
    with serving(program.path, drawn, tmp_path / "log", "--time-limit", 1) as server:
        with stream_of(server, 10_000) as connection:
            connection.sendall(b"k\tCwVG\n")
            said = b"".join(iter(lambda: connection.recv(65_536), b""))
        assert b'"fault":"BadLength 3","key":"k","record":1}\n' in said
        assert not said.endswith(b"0\r\n\r\n")
        with stream_of(server, 10_000) as connection:
            said = b"".join(iter(lambda: connection.recv(65_536), b""))
        assert said.startswith(b"HTTP/1.1 504 ") and b'"title": "TimedOut"' in said
        assert server.get(path_of("match", GOOD)).status in (200, 422)


@pytest.mark.parametrize("sent", [b"k\tCwV", b"k\tCwVG\n"])
def test_streams_that_come_slowly(
    sent: bytes, program: Program, drawn: Path, tmp_path: Path, texts: list[str]
) -> None:
    """Others don't wait for them, and they go on."""
    options = ("--workers", 1, "--time-limit", 4)
    with serving(program.path, drawn, tmp_path / "log", *options) as server:
        streams = [stream_of(server, 20) for _ in range(3)]
        for stream in streams:
            stream.sendall(sent)
        after = server.get(path_of("match", texts[1], after="0:1"))
        assert after.status in (200, 422), after
        lines = server.get("/batch/match", "POST", b"CwVG\n", content_type="text/plain")
        assert lines.body.count(b'"fault":"BadLength 3"') == 1
        for stream in streams:
            stream.sendall((sent + b"G\nCwVG\nCwVG\nCwVG\n")[len(sent) : 20])
            said = b""
            while not said.endswith(b"0\r\n\r\n"):
                assert (piece := stream.recv(65_536)), said
                said += piece
            assert b'"fault":"BadLength 3","key":"k","record":1}\n' in said
            stream.close()


def health_of(server: Server) -> dict[str, object]:
    """What `/health` says."""
    found: dict[str, object] = json.loads(server.get("/health").body)
    return found


@contextmanager
def load_on(
    server: Server, paths: Sequence[str], clients: int = 4
) -> Iterator[list[tuple[str, Reply]]]:
    """Clients that ask again and again, and what they were answered: a status 0 where the connection was closed."""
    replies: list[tuple[str, Reply]] = []
    is_over = threading.Event()

    def ask(seed: int) -> None:
        draws = random.Random(seed)
        connection = server.connection()
        while not is_over.is_set():
            path = draws.choice(paths)
            try:
                replies.append((path, reply_on(connection, path)))
            except (OSError, http.client.HTTPException):
                connection.close()
                replies.append((path, Reply(0, {}, b"")))

    threads = [threading.Thread(target=ask, args=(seed,)) for seed in range(clients)]
    for thread in threads:
        thread.start()
    try:
        yield replies
    finally:
        is_over.set()
        for thread in threads:
            thread.join()


def expected_by_path(program: Program, folder: Path, texts: Sequence[str]) -> dict[str, Expected]:
    """What is expected of each path."""
    return {
        path_of(what, text): expected
        for what in ("match", "places")
        for text, expected in zip(texts, expected_of(program, folder, what, texts))
    }


def test_processes_are_killed_under_load(
    server: Server, program: Program, drawn: Path, texts: list[str]
) -> None:
    """Each request is answered, and nearly all as if nothing had happened: one whose process was killed twice isn't."""
    wanted = expected_by_path(program, drawn, texts[:100])
    with load_on(server, list(wanted)) as replies:
        for _ in range(12):
            count = len(replies)
            wait_until(lambda: len(replies) > count + 20)
            for pid in server.programs():
                with_no_error(lambda: os.kill(pid, signal.SIGKILL))
    answered = [(path, reply) for path, reply in replies if reply.status in (200, 422)]
    assert all(wanted[path].agrees(reply) for path, reply in answered)
    others = [reply for _, reply in replies if reply.status not in (200, 422)]
    assert {reply.status for reply in others} <= {503}, server.log()
    assert all(reply.problem()[1] == "ProgramFailed" for reply in others)
    assert len(others) <= len(replies) // 20
    assert server.figure('olr_restarts_total{reason="ended"}') >= 12
    assert server.get("/health").status == 200
    assert "was ended by signal 9" in server.log()


def with_no_error(call: Callable[[], None]) -> None:
    """Calls what may find no process any more."""
    try:
        call()
    except ProcessLookupError:
        pass


@pytest.mark.parametrize("way", ["exits", "ends", "another key", "broken JSON end", "two lines"])
def test_a_program_that_fails_at_a_reference(
    way: str, program: Program, drawn: Path, tmp_path: Path, texts: list[str]
) -> None:
    """That request is asked twice, and those behind it are answered."""
    good = whole(texts)[:12]
    ways = {good[0]: "half a line" if way == "broken JSON end" else way}
    bad = bad_program(tmp_path / "bad", program, ways)
    expected = expected_of(program, drawn, "match", good)
    with serving(bad, drawn, tmp_path / "log", "--workers", 1) as server:
        paths = [path_of("match", text) for text in good]
        replies = asyncio.run(ask_all(server, paths, len(good)))
        if way != "two lines":
            assert replies[0].problem()[:2] == (503, "ProgramFailed")
            assert "retry-after" in replies[0].headers
            assert server.figure('olr_restarts_total{reason="ended"}') == 2
        assert all(it.agrees(reply) for it, reply in zip(expected[1:], replies[1:]))
        assert str(tmp_path) not in replies[0].body.decode()


@pytest.mark.parametrize("way", ["hangs", "hangs within a line"])
def test_a_program_that_hangs(
    way: str, program: Program, drawn: Path, tmp_path: Path, texts: list[str]
) -> None:
    """That request is refused when its time is over, and those behind it are asked again."""
    good = whole(texts)[:6]
    bad = bad_program(tmp_path / "bad", program, {good[2]: way})
    expected = expected_of(program, drawn, "match", good)
    options = ("--workers", 1, "--time-limit", 2)
    with serving(bad, drawn, tmp_path / "log", *options) as server:
        replies = asyncio.run(ask_all(server, [path_of("match", text) for text in good], 6))
        assert replies[2].problem()[:2] == (504, "TimedOut")
        others = [number for number in range(6) if number != 2]
        assert all(expected[number].agrees(replies[number]) for number in others)
        assert server.figure('olr_restarts_total{reason="time"}') == 1


def test_a_program_that_hangs_in_a_stream(
    program: Program, drawn: Path, tmp_path: Path, texts: list[str]
) -> None:
    """The stream is cut off behind what was answered."""
    good = whole(texts)[:4]
    bad = bad_program(tmp_path / "bad", program, {good[2]: "hangs"})
    with serving(bad, drawn, tmp_path / "log", "--time-limit", 1) as server:
        records = "".join(f"{text}\n" for text in good).encode()
        with stream_of(server, len(records)) as connection:
            connection.sendall(records)
            said = b"".join(iter(lambda: connection.recv(65_536), b""))
        assert said.count(b'"record":') == 2 and not said.endswith(b"0\r\n\r\n")
        assert "Traceback" not in server.log()


def test_requests_wait_no_longer_than_they_may(
    program: Program, drawn: Path, tmp_path: Path, texts: list[str]
) -> None:
    """Here the only process answers five a second."""
    bad = bad_program(tmp_path / "bad", program, {texts[1]: "is slow"})
    options = ("--workers", 1, "--time-limit", 1)
    with serving(bad, drawn, tmp_path / "log", *options) as server:
        replies = asyncio.run(ask_all(server, [path_of("match", texts[1])] * 20, 20))
        busy = [reply for reply in replies if reply.status == 503]
        assert len(replies) - len(busy) >= 4 and len(busy) >= 4
        assert {reply.status for reply in replies} <= {200, 422, 503}
        assert {reply.problem()[1] for reply in busy} == {"Busy"}
        assert {reply.headers["retry-after"] for reply in busy} == {"2"}


def replace_map(folder: Path, source: Path) -> None:
    """Puts the files of another map in place of those of a folder."""
    for name in ("nodes.csv", "lines.csv"):
        shutil.copy(source / name, folder / "new")
        (folder / "new").replace(folder / name)


def test_files_are_swapped_under_load(
    server: Server, folder: Path, program: Program, drawn: Path, other: Path, texts: list[str]
) -> None:
    """Each answer is that of one of the two maps: of the old one before the signal, and of the new one once it was read."""
    some = texts[:80]
    old = expected_by_path(program, drawn, some)
    new = expected_by_path(program, other, some)
    digest = health_of(server)["digest"]
    with load_on(server, list(old)) as replies:
        wait_until(lambda: len(replies) > 200)
        replace_map(folder, other)
        before = len(replies)
        wait_until(lambda: len(replies) > before + 100)
        server.signal(signal.SIGHUP)
        wait_until(lambda: health_of(server)["digest"] != digest)
        behind = len(replies) + 50
        wait_until(lambda: len(replies) > behind + 300)
    for path, reply in replies:
        assert reply.status in (200, 422) and (old[path].agrees(reply) or new[path].agrees(reply))
    assert all(old[path].agrees(reply) for path, reply in replies[:before])
    assert all(new[path].agrees(reply) for path, reply in replies[behind:])
    assert "were read anew" in server.log()


def test_files_that_are_refused(server: Server, folder: Path, texts: list[str]) -> None:
    """The old map stays, and the log and `/health` say so."""
    path = path_of("match", whole(texts)[0])
    expected = server.get(path)
    lines = (folder / "lines.csv").read_bytes()
    (folder / "lines.csv").write_bytes(lines + b"x\n")
    server.signal(signal.SIGHUP)
    wait_until(lambda: health_of(server)["refused"] is not None)
    wait_until(lambda: health_of(server)["changed"] is True)
    reply = server.get("/health")
    assert reply.status == 200
    assert str(folder) not in reply.body.decode()
    assert server.get(path).body == expected.body
    assert "the map stays as it was" in server.log()
    (folder / "lines.csv").write_bytes(lines)
    server.signal(signal.SIGHUP)
    wait_until(lambda: health_of(server)["refused"] is None)
    assert server.get(path).body == expected.body


def test_files_that_change_without_a_signal(
    server: Server, folder: Path, other: Path, texts: list[str]
) -> None:
    """What runs answers whatever is asked by what it has read, and nothing else is started."""
    text = whole(texts)[0]
    paths = [path_of("match", text), path_of("why", text, radius=7)]
    expected = [server.get(path).body for path in paths]
    replace_map(folder, other)
    wait_until(lambda: "SIGHUP reads them anew" in server.log())
    assert [server.get(path).body for path in paths] == expected
    assert server.get(path_of("scene", text)).status == 200
    about = health_of(server)
    assert about["changed"] and about["able"]
    assert server.log().count("have changed") == server.log().count("\n") == 1
    assert "Map" not in server.log()
    assert server.get("/ready").status == 503
    for pid in server.programs():
        os.kill(pid, signal.SIGKILL)
    wait_until(lambda: not health_of(server)["able"])
    assert (server.get("/health").status, server.get("/ready").status) == (200, 503)
    assert server.get(path_of("match", text)).problem()[0] == 503
    server.signal(signal.SIGHUP)
    wait_until(lambda: server.get("/ready").status == 200)
    assert server.get(path_of("why", text)).status == 200


@pytest.mark.parametrize("number", [signal.SIGTERM, signal.SIGINT])
def test_it_ends_under_load(
    number: int, program: Program, drawn: Path, tmp_path: Path, texts: list[str]
) -> None:
    """What runs is answered, nothing is cut off, and no process is left."""
    wanted = expected_by_path(program, drawn, texts[:60])
    with serving(program.path, drawn, tmp_path / "log") as server:
        with load_on(server, list(wanted), 8) as replies:
            wait_until(lambda: len(replies) > 300)
            programs = server.programs()
            assert programs
            server.signal(number)
            assert server.process.wait(20) == 0
        answered = [(path, reply) for path, reply in replies if reply.status]
        assert all(wanted[path].agrees(reply) for path, reply in answered)
        assert not any(map(is_running, programs))
        assert "Traceback" not in server.log()


def test_it_ends_although_a_stream_runs(server: Server) -> None:
    """Whose client sends nothing more: within the seconds that are stated."""
    with stream_of(server, 10_000) as connection:
        connection.sendall(b"k\tCwVG\n")
        assert connection.recv(1000).startswith(b"HTTP/1.1 200")
        programs = server.programs()
        server.signal(signal.SIGTERM)
        assert server.process.wait(20) == 0
    assert "Traceback" not in server.log()
    wait_until(lambda: not any(map(is_running, programs)))


def test_it_is_killed(program: Program, drawn: Path, tmp_path: Path, texts: list[str]) -> None:
    """No process is left: neither one whose input ends, nor one that works and doesn't look at its input."""
    bad = bad_program(tmp_path / "bad", program, {texts[2]: "hangs"})
    with serving(bad, drawn, tmp_path / "log", "--workers", 2) as server:
        with stream_of(server, 10_000) as connection:
            connection.sendall(f"{texts[2]}\n".encode() * 5)
            wait_until(lambda: len(server.programs()) == 2)
            programs = server.programs()
            server.process.kill()
            server.process.wait()
            wait_until(lambda: not any(map(is_running, programs)))
