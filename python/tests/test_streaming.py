"""Streams of `olr-tools serve`, with a made-up map and client: how much of a body is read, and what becomes of one that is too long."""

import asyncio
import gc
import pytest
from collections.abc import AsyncGenerator, Callable, Sequence
from contextlib import aclosing
from pathlib import Path
from typing import Any

from conftest import Program
from fake_pool import FakeClock, run_within, turns
from olr.asking.files import Version
from olr.asking.exchange import Asked
from olr.asking.records import Record, Splitter
from olr.errors import MapRefused, ProgramEnded
from olr.regions.making import make_store_of_folder
from olr.serving.bodies import Records, in_order
from olr.serving.connections import Pace
from olr.serving.folder_map import FolderMap
from olr.serving.limits import Limits
from olr.serving.problems import Problem
from olr.serving.process import Answer
from olr.serving.queries import asked_of
from olr.serving.served import Served
from olr.serving.store_map import StoreMap
from olr.serving.streaming import Lines, Streaming
from stores import folder_of

MATCH = asked_of("match", {}, 10_000)
LONG = 65_536
"""Bytes of the longest record (docs/specification/batch.md)."""


async def echoed(_: Asked, body: Records) -> AsyncGenerator[bytes, None]:
    """What came is sent back when all of it has come."""
    data = [record.data async for records in body for record in records]
    yield b"".join(data)


class Client:
    """A client of an address whose answer is lines: it sends a body in pieces, and then is gone."""

    def __init__(self, pieces: Sequence[bytes], is_whole: bool = True, **fields: str) -> None:
        """The names of fields have `_` in place of `-`."""
        self._left = iter(pieces)
        self._last = len(pieces) if is_whole else 0
        self._came = 0
        self.sent: list[Any] = []
        self.is_aborted = False
        named = {"content-type": "text/plain"}
        named |= {name.lower().replace("_", "-"): it for name, it in fields.items()}
        self.scope: dict[str, Any] = {"type": "http", "method": "POST", "query_string": b""}
        self.scope["headers"] = [(name.encode(), it.encode()) for name, it in named.items()]
        self.scope["abort"] = self.abort
        self.scope["pace"] = Pace(30)

    def abort(self) -> None:
        """The connection is closed."""
        self.is_aborted = True

    async def receive(self) -> Any:
        """The next piece."""
        piece = next(self._left, None)
        self._came += 1
        if piece is None:
            return {"type": "http.disconnect"}
        return {"type": "http.request", "body": piece, "more_body": self._came != self._last}

    async def send(self, message: Any) -> None:
        """Takes a message."""
        self.sent.append(message)

    async def ask(self, lines: Lines = echoed, **limits: Any) -> tuple[int, bytes]:
        """The status and the body of what is answered; the status 0 if nothing is."""
        streaming = Streaming(Limits(**limits), "match", lines)
        try:
            await streaming(self.scope, self.receive, self.send)
        except Problem as problem:
            return problem.status, b""
        if not self.sent:
            return 0, b""
        return self.sent[0]["status"], b"".join(one.get("body", b"") for one in self.sent)


def test_a_body_that_says_no_length() -> None:
    """Its bytes are counted as they come."""
    ten = [b"x" * 10] * 10
    assert run_within(Client(ten).ask(body=100)) == (200, b"x" * 100)
    status, said = run_within(Client(ten).ask(body=99))
    assert status == 413 and b"a body has 99 bytes at most: --body-limit" in said


def test_a_body_that_says_its_length() -> None:
    """It is refused before it comes."""
    hundred = [b"x" * 100]
    assert run_within(Client(hundred, Content_Length="100").ask(body=100)) == (200, b"x" * 100)
    assert run_within(Client([], Content_Length="100").ask(body=99))[0] == 413


@pytest.mark.parametrize(
    "kind, status",
    [
        ("text/plain", 200),
        ("TEXT/plain ; charset=utf-8", 200),
        ("application/x-ndjson", 200),
        ("application/json", 415),
        ("text/plainer", 415),
        ("", 415),
    ],
)
def test_types_of_bodies(kind: str, status: int) -> None:
    assert run_within(Client([b"x"], Content_Type=kind).ask())[0] == status


def test_a_client_that_goes() -> None:
    """Nothing is answered."""
    assert run_within(Client([b"x", b"y"], is_whole=False).ask()) == (0, b"")


async def failing(_: Asked, body: Records) -> AsyncGenerator[bytes, None]:
    """A line for each record, but for the last one."""
    async for records in body:
        for record in records:
            if record.data == b"bad":
                raise ProgramEnded("it ended")
            yield record.data


def test_an_answer_that_fails() -> None:
    """Before it has begun it is a problem; later the connection is closed, without an end."""
    status, said = run_within(Client([b"bad"]).ask(failing))
    assert status == 503 and b"ProgramFailed" in said
    client = Client([b"x\n", b"bad"])
    assert run_within(client.ask(failing)) == (200, b"x") and client.is_aborted
    assert client.sent[-1] == {"type": "http.response.body", "body": b"x", "more_body": True}


async def numbered(_: Asked, body: Records) -> AsyncGenerator[bytes, None]:
    """A line for each record, with its number."""
    async for records in body:
        yield b"".join(b"%d\n" % record.number for record in records)


class Stream:
    """A stream whose client sends when a test does."""

    def __init__(self, lines: Lines = numbered) -> None:
        self.client = Client([])
        self.pieces: asyncio.Queue[tuple[bytes, bool]] = asyncio.Queue()
        streaming = Streaming(Limits(), "match", lines)
        self.answering = asyncio.create_task(
            streaming(self.client.scope, self._receive, self.client.send)
        )

    async def _receive(self) -> Any:
        piece, is_more = await self.pieces.get()
        return {"type": "http.request", "body": piece, "more_body": is_more}

    def send(self, piece: bytes, is_more: bool = True) -> None:
        """Sends a piece, which may be the last one."""
        self.pieces.put_nowait((piece, is_more))

    def said(self) -> bytes:
        """What was answered until now."""
        return b"".join(one.get("body", b"") for one in self.client.sent)

    async def until(self, condition: Callable[[], bool]) -> None:
        """Waits until something is so."""
        async with asyncio.timeout(10):
            while not condition():
                await asyncio.sleep(0.001)

    def is_paused(self) -> bool:
        """Whether it says that its client isn't slow."""
        return bool(self.client.scope["pace"].is_paused())


def test_a_client_that_has_sent_whole_records_isnt_slow() -> None:
    """It may wait for their lines, which come at once. One that hasn't finished a record is to send on."""

    async def run() -> None:
        stream = Stream()
        for piece in (b"a", b"b" * 30, b"c" * 40_000):
            stream.send(piece)
            await stream.until(stream.pieces.empty)
            await turns()
        assert stream.said() == b"" and not stream.is_paused()
        stream.send(b"\n")
        await stream.until(lambda: stream.said() == b"1\n")
        assert stream.is_paused()
        stream.send(b"\n\n4\n5")
        await stream.until(lambda: stream.said() == b"1\n4\n")
        assert not stream.is_paused()
        stream.send(b"", is_more=False)
        await stream.answering
        assert stream.said() == b"1\n4\n5\n"

    run_within(run())


@pytest.mark.parametrize("pause, is_late", [(29.0, False), (31.0, True)])
def test_a_stream_that_moves(pause: float, is_late: bool) -> None:
    """It may take any time, but no longer than the limit between two pieces: by a clock that is set here."""
    clock = FakeClock()

    async def slow(_: Asked, body: Records) -> AsyncGenerator[bytes, None]:
        assert [record.data async for records in body for record in records] == [b"x"]
        for seconds in (20.0, 20.0, pause, 20.0):
            clock.now += seconds
            await turns()
            yield b"x"

    async def run() -> None:
        setattr(asyncio.get_running_loop(), "time", clock)
        client = Client([b"x"])
        assert await client.ask(slow, time=30) == (200, b"xx" if is_late else b"xxxx")
        assert client.is_aborted == is_late

    run_within(run())


@pytest.mark.parametrize("pause, is_late", [(29.0, False), (31.0, True)])
def test_a_body_that_moves(pause: float, is_late: bool) -> None:
    """So may a body, also while no record ends in it."""
    clock = FakeClock()

    async def run() -> None:
        setattr(asyncio.get_running_loop(), "time", clock)
        stream = Stream()
        for seconds in (20.0, 20.0, pause):
            await turns()
            clock.now += seconds
            await turns()
            stream.send(b"x")
        assert stream.answering.done() == is_late
        stream.answering.cancel()

    run_within(run())


class Asking:
    """Records that are asked, and are answered when a test says so."""

    def __init__(self, ahead: int, body: Records) -> None:
        self.there: list[asyncio.Future[int]] = []
        self.lots: list[list[int]] = []
        self.taking = asyncio.create_task(self._take(in_order(body, self._ask, ahead)))

    def _ask(self, record: Record) -> "asyncio.Future[int]":
        self.there.append(asyncio.get_running_loop().create_future())
        return self.there[-1]

    async def _take(self, lots: AsyncGenerator[list[tuple[Record, int]], None]) -> None:
        async with aclosing(lots):
            async for some in lots:
                self.lots.append([made for _, made in some])

    async def answer(self, *numbers: int) -> None:
        """Answers some, each with its number."""
        for number in numbers:
            self.there[number].set_result(number)
        await turns()


async def body_of(count: int, error: Exception | None = None) -> Records:
    """A body of so many records, which may fail then."""
    yield [Record(number + 1, b"x") for number in range(count)]
    if error is not None:
        raise error


def test_records_are_asked_ahead() -> None:
    """So many at once. Their answers are taken in order, as many as are there."""

    async def run() -> None:
        asking = Asking(3, body_of(7))
        await turns()
        assert len(asking.there) == 3
        await asking.answer(1, 2)
        assert not asking.lots and len(asking.there) == 3
        await asking.answer(0)
        assert asking.lots == [[0, 1, 2]] and len(asking.there) == 6
        await asking.answer(3)
        assert asking.lots[1:] == [[3]] and len(asking.there) == 7
        await asking.answer(4, 5, 6)
        await asking.taking
        assert asking.lots[2:] == [[4, 5, 6]]

    run_within(run())


def test_a_body_that_fails() -> None:
    """What was asked before is answered; then its error is raised."""

    async def run() -> None:
        asking = Asking(3, body_of(2, Problem(413, "BodyTooLarge", "it is too long")))
        await turns()
        await asking.answer(0, 1)
        with pytest.raises(Problem, match="it is too long"):
            await asking.taking
        assert asking.lots == [[0, 1]]

    run_within(run())


def test_an_answer_that_fails_while_others_are_asked() -> None:
    """These aren't asked any more, and nothing else is logged of those that failed too."""
    heard: list[Any] = []

    async def run() -> None:
        asyncio.get_running_loop().set_exception_handler(lambda _, about: heard.append(about))
        asking = Asking(3, body_of(7))
        await turns()
        for one in asking.there[:2]:
            one.set_exception(ProgramEnded("it ended"))
        with pytest.raises(ProgramEnded):
            await asking.taking
        assert asking.there[2].cancelled() and len(asking.there) == 3
        asking.there.clear()
        gc.collect()

    run_within(run())
    assert not heard


def test_a_stream_is_of_one_version(tmp_path: Path) -> None:
    """Where another map takes the place of the first one it is cut off."""

    async def run() -> None:
        served = FolderMap(folder_of(tmp_path / "map"), 1, Limits())
        served.pool.edition.files.version = Version("one", None)
        answers = [Answer(b"{}", None, Version(name, None)) for name in ("one", "other")]

        def ask(*_: object, **__: object) -> "asyncio.Future[Answer]":
            found: asyncio.Future[Answer] = asyncio.get_running_loop().create_future()
            found.set_result(answers.pop(0))
            return found

        setattr(served.pool, "ask", ask)
        with pytest.raises(MapRefused):
            await lines_about(served, body_of(2))

    run_within(run())


async def lines_about(served: Served, body: Records) -> bytes:
    """The lines of a map about the records of a body."""
    return b"".join([one.line() async for some in served.batch(MATCH, body) for one in some])


@pytest.mark.parametrize("size", [LONG - 1, LONG, LONG + 1])
def test_a_long_record_of_a_store(
    size: int, program: Program, tmp_path: Path, monkeypatch: pytest.MonkeyPatch
) -> None:
    """Wherever pieces of the body end, it has the program's line: the longest one, with its carriage return, isn't too long."""
    monkeypatch.setenv("OLR_PROGRAM", str(program.path))
    folder = folder_of(tmp_path / "map")
    make_store_of_folder(folder, tmp_path / "map.gpkg")
    records = [b"x" * size, b"\r", b"\nlast\n"]
    (tmp_path / "records").write_bytes(b"".join(records))
    words = ("batch", "match", "--map", folder, "--input", tmp_path / "records")
    expected = program.run(*words).stdout.encode()
    assert (b"LongRecord" in expected) == (size > LONG)

    async def pieces(cuts: Sequence[bytes]) -> Records:
        splitter = Splitter()
        for piece in cuts:
            yield splitter.receive(piece)
        yield splitter.end()

    async def run() -> None:
        served = StoreMap(tmp_path / "map.gpkg", Limits())
        await served.open()
        for cuts in (records, [b"".join(records)], [b"".join(records[:2]), records[2]]):
            assert await lines_about(served, pieces(cuts)) == expected
        await served.close()

    run_within(run())
