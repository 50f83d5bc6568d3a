"""What tests of `olr-tools serve` share: a server in a process of its own, and clients of Python alone."""

import asyncio
import http.client
import json
import os
import signal
import subprocess
import time
from collections.abc import Callable, Iterator, Sequence
from contextlib import AbstractContextManager, contextmanager
from pathlib import Path
from typing import Any, NamedTuple, Union
from urllib.parse import quote

from conftest import TOP, Program, by_default
from forked import Forked

SECONDS = 600.0
"""So long is waited for what has to come, also on a busy machine: only what hangs fails by it."""


Process = Union[Forked, "subprocess.Popen[str]"]
Begin = Callable[[Sequence[str], dict[str, str], Path], AbstractContextManager[Process]]
"""Starts `olr-tools` with words and variables, and its standard error in a file."""


class Reply(NamedTuple):
    """An answer."""

    status: int
    headers: dict[str, str]
    """By their names in small letters."""
    body: bytes

    def problem(self) -> tuple[int, str, str]:
        """The status, title and detail of a problem document."""
        assert self.headers["content-type"] == "application/problem+json"
        found = json.loads(self.body)
        # What isn't HTTP has no name.
        assert found.pop("request_id", None) == self.headers.get("x-request-id")
        assert found.keys() == {"type", "title", "status", "detail"}
        assert found["status"] == self.status and found["type"] == f"/docs#{found['title']}"
        return self.status, found["title"], found["detail"]


class Server:
    """A server that runs."""

    def __init__(self, process: Process, errors: Path, url: str) -> None:
        self.process, self.errors, self.url = process, errors, url
        self.port = int(url.rstrip("/").rpartition(":")[2])

    def connection(self) -> http.client.HTTPConnection:
        """A new connection."""
        return http.client.HTTPConnection("127.0.0.1", self.port, timeout=SECONDS)

    def get(self, path: str, method: str = "GET", body: Any = None, **headers: str) -> Reply:
        """The answer to one request. Names of headers have `_` in place of `-`."""
        connection = self.connection()
        try:
            return reply_on(connection, path, method, body, **headers)
        finally:
            connection.close()

    def figure(self, name: str) -> float:
        """A figure of `/metrics` by its name with labels, or 0 if it isn't there."""
        text = self.get("/metrics").body.decode()
        return next(
            (
                float(line.rpartition(" ")[2])
                for line in text.splitlines()
                if line.rpartition(" ")[0] == name
            ),
            0.0,
        )

    def programs(self) -> list[int]:
        """The processes that the server has started."""
        return children_of(self.process.pid)

    def memory(self) -> int:
        """The memory that it has in use, in KiB."""
        text = Path(f"/proc/{self.process.pid}/status").read_text()
        return int(text.partition("VmRSS:")[2].split()[0])

    def log(self) -> str:
        """What it wrote on standard error."""
        return self.errors.read_text()

    def signal(self, number: int) -> None:
        """Sends a signal to it."""
        os.kill(self.process.pid, number)


def reply_on(
    connection: http.client.HTTPConnection,
    path: str,
    method: str = "GET",
    body: Any = None,
    **headers: str,
) -> Reply:
    """The answer to a request on a connection."""
    named = {name.replace("_", "-"): value for name, value in headers.items()}
    connection.request(method, path, body=body, headers=named)
    response = connection.getresponse()
    found = {name.lower(): value for name, value in response.getheaders()}
    return Reply(response.status, found, response.read())


@contextmanager
def started(
    words: Sequence[str], environment: dict[str, str], errors: Path, before: Sequence[str] = ()
) -> Iterator[Process]:
    """The command `olr-tools` as a new process, which another command may start."""
    with errors.open("w") as stream, subprocess.Popen(
        [*before, "/usr/bin/python3", "-m", "olr", *words],
        stdout=subprocess.PIPE,
        stderr=stream,
        text=True,
        env=environment,
    ) as process:
        yield process


@contextmanager
def forked(words: Sequence[str], environment: dict[str, str], errors: Path) -> Iterator[Process]:
    """The same as a fork."""
    with Forked(words, environment, errors) as process:
        yield process


@contextmanager
def serving(
    program: Path, folder: Path | str, errors: Path, *options: object, begin: Begin = forked
) -> Iterator[Server]:
    """A server on a map, at a free port. None of its processes outlives this. It is new where its memory is looked at."""
    words = ["serve", "--map", folder, "--port", 0, "--workers", 2, *options]
    environment = os.environ | {"OLR_PROGRAM": str(program), "PYTHONPATH": str(TOP / "python")}
    with begin(list(map(str, words)), environment, errors) as process:
        assert process.stdout is not None
        programs: list[int] = []
        try:
            url = process.stdout.readline().strip()
            assert url, errors.read_text()
            server = Server(process, errors, url)
            yield server
            programs = server.programs()
            if process.poll() is None:
                server.signal(signal.SIGTERM)
                assert process.wait(SECONDS) == 0
        finally:
            process.kill()
    wait_until(lambda: not any(map(is_running, programs)))


def children_of(parent: int) -> list[int]:
    """The processes that one has started."""
    found = []
    for entry in Path("/proc").iterdir():
        if entry.name.isdecimal():
            try:
                fields = (entry / "stat").read_text().rpartition(") ")[2].split()
            except OSError:
                continue
            if int(fields[1]) == parent and fields[0] != "Z":
                found.append(int(entry.name))
    return found


def is_running(pid: int) -> bool:
    """Whether a process is there, and hasn't ended."""
    try:
        return Path(f"/proc/{pid}/stat").read_text().rpartition(") ")[2][0] != "Z"
    except OSError:
        return False


def wait_until(condition: Callable[[], bool], seconds: float = SECONDS) -> None:
    """Waits until something is so."""
    end = time.monotonic() + seconds
    while not condition():
        assert time.monotonic() < end, "it didn't come"
        time.sleep(0.02)


def path_of(what: str, text: str, **options: object) -> str:
    """The path and query of a question."""
    pairs: dict[str, object] = {"ref": text} | {
        name.rstrip("_"): value for name, value in options.items()
    }
    return f"/{what}?" + "&".join(f"{name}={quote(str(it), safe='')}" for name, it in pairs.items())


class Expected(NamedTuple):
    """What `olr batch` answers to a reference."""

    answer: bytes
    fault: str | None

    def agrees(self, reply: Reply) -> bool:
        """Whether an answer of the server is the same."""
        if self.fault is None:
            return (reply.status, reply.body) == (200, self.answer)
        return reply.status == 422 and json.loads(reply.body)["detail"].startswith(self.fault)


def expected_of(
    program: Program, folder: Path, what: str, texts: Sequence[str], *options: object
) -> list[Expected]:
    """What `olr batch` answers to references, in the bytes of its lines: the tolerances that aren't given are those of the default profile."""
    records = "".join(f"k\t{text}\n" for text in texts)
    command = by_default(program.path, "batch", what, "--map", folder, *options)
    ended = subprocess.run(command, input=records.encode(), capture_output=True, check=True)
    found = []
    for number, line in enumerate(ended.stdout.splitlines(), 1):
        fault = json.loads(line)["fault"]
        end = f',"fault":{json.dumps(fault, ensure_ascii=False)},"key":"k","record":{number}}}'
        assert line.startswith(b'{"answer":') and line.endswith(end.encode())
        found.append(Expected(line[len(b'{"answer":') : -len(end.encode())], fault))
    return found


async def ask_all(server: Server, paths: Sequence[str], clients: int = 16) -> list[Reply]:
    """The answers to requests, of which so many are asked at once, each on a connection that stays open. A connection that is closed has
    the status 0."""
    replies: list[Reply | None] = [None] * len(paths)
    left = iter(enumerate(paths))

    async def ask() -> None:
        reader = writer = None
        for number, path in left:
            try:
                if writer is None:
                    reader, writer = await asyncio.open_connection("127.0.0.1", server.port)
                assert reader is not None
                writer.write(
                    f"GET {path} HTTP/1.1\r\nHost: 127.0.0.1:{server.port}\r\n\r\n".encode()
                )
                replies[number] = await read_reply(reader)
            except (OSError, asyncio.IncompleteReadError):
                replies[number] = Reply(0, {}, b"")
                writer = None
        if writer is not None:
            writer.close()

    async with asyncio.timeout(4 * SECONDS):
        await asyncio.gather(*(ask() for _ in range(clients)))
    return [reply for reply in replies if reply is not None]


async def read_reply(reader: asyncio.StreamReader) -> Reply:
    """An answer with a length."""
    head = (await reader.readuntil(b"\r\n\r\n")).decode("latin-1")
    first, *fields = head.strip().split("\r\n")
    headers = {
        name.lower(): value.strip() for name, _, value in (it.partition(":") for it in fields)
    }
    body = await reader.readexactly(int(headers.get("content-length", 0)))
    return Reply(int(first.split(" ")[1]), headers, body)
