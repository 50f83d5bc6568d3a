"""The pool of `olr-tools serve`, asked without a server."""

import asyncio
import pytest
import shutil
from collections.abc import Callable
from contextlib import AsyncExitStack
from pathlib import Path

from asking import draw_map
from fake_pool import ends_of
from olr.asking.exchange import UnknownWords, record_about
from olr.errors import TimedOut
from olr.serving import process
from olr.serving.edition import Edition
from olr.serving.limits import Limits
from olr.serving.pool import Pool
from olr.serving.problems import Problem
from olr.serving.rooms import ABREAST, Room


@pytest.fixture(scope="module")
def drawn(tmp_path_factory: pytest.TempPathFactory) -> Path:
    """A drawn map."""
    return draw_map(tmp_path_factory.mktemp("drawn"))


@pytest.fixture
def folder(drawn: Path, tmp_path: Path) -> Path:
    """A copy of it, which may be changed."""
    return Path(shutil.copytree(drawn, tmp_path / "map"))


def slow_program(file: Path, before: str = "") -> Path:
    """Writes a program that sleeps for so many milliseconds as the reference says, and then answers with it. `before` is run first."""
    file.write_text(
        f"""#!/usr/bin/python3 -IS
import os, subprocess, sys, time
{before}
for number, record in enumerate(sys.stdin.buffer, 1):
    text = record.decode().split(" -- ")[1].strip()
    if text.isdigit():
        time.sleep(int(text) / 1000)
    answer, fault = ("null", '"Words x"') if text == "unknown" else ('{{"is":"%s"}}' % text, "null")
    print('{{"answer":%s,"fault":%s,"key":"%d","record":%d}}' % (answer, fault, number, number), flush=True)
"""
    )
    file.chmod(0o755)
    return file


def pool_of(folder: Path, program: Path, workers: int, seconds: float = 30) -> Pool:
    """A pool."""
    return Pool(Edition(folder, program), workers, Limits(time=seconds))


async def asked(pool: Pool, text: str) -> "bytes | Exception":
    """What a pool answers, or why it doesn't."""
    try:
        return (await pool.ask(record_about(["match"], text.encode()))).json
    except (TimedOut, UnknownWords, Problem) as error:
        return error


def said(text: str) -> bytes:
    """What the program answers."""
    return b'{"is":"%b"}' % text.encode()


async def until(is_so: Callable[[], bool]) -> None:
    """Waits until something is so, for ten seconds."""
    async with asyncio.timeout(10):
        while not is_so():
            await asyncio.sleep(0.01)


def test_what_waits_while_the_files_are_read_anew(folder: Path, tmp_path: Path) -> None:
    """It is answered, and nothing is lost."""
    program = slow_program(tmp_path / "slow")

    async def run() -> None:
        pool = pool_of(folder, program, 3)
        await pool.open()
        tasks = [asyncio.create_task(asked(pool, "100")) for _ in range(20)]
        await until(lambda: pool.figures()["working"] == 2 and pool.figures()["waiting"] > 8)
        with (folder / "nodes.csv").open("a") as nodes:
            nodes.write("999999999,1,1\n")
        await pool.renew(Edition(folder, program))
        async with asyncio.timeout(10):
            assert await asyncio.gather(*tasks) == [said("100")] * 20
        assert pool.trouble is None
        await pool.close()

    asyncio.run(run())


def test_a_process_that_lingers_when_its_time_is_over(folder: Path, tmp_path: Path) -> None:
    """The request that it worked at is refused, and those behind it aren't: here another process keeps its output open for a while."""
    lingering = 'subprocess.Popen(["sleep", "3"], start_new_session=True)'
    program = slow_program(tmp_path / "slow", lingering)

    async def run() -> None:
        pool = pool_of(folder, program, 1, 2)
        await pool.open()
        (lingering,) = pool._there
        watching = asyncio.create_task(pool.watch())
        first, *others = await asyncio.gather(*(asked(pool, text) for text in ("60000", "1", "2")))
        assert isinstance(first, TimedOut)
        assert others == [said("1"), said("2")] and lingering not in pool._there
        watching.cancel()
        await lingering.ended()
        await pool.close()

    asyncio.run(run())


def test_words_that_the_program_doesnt_know(folder: Path, tmp_path: Path) -> None:
    """They are asked once. What waits behind them is answered by another process."""
    program = slow_program(tmp_path / "slow")

    async def run() -> None:
        pool = pool_of(folder, program, 1)
        await pool.open()
        first, second = await asyncio.gather(asked(pool, "unknown"), asked(pool, "1"))
        assert isinstance(first, UnknownWords) and second == said("1")
        assert ends_of(pool) == {"ended": 1}
        await pool.close()

    asyncio.run(run())


def test_a_map_that_is_never_read(
    folder: Path, tmp_path: Path, monkeypatch: pytest.MonkeyPatch
) -> None:
    """Requests are refused when the time for it is over."""
    slow = 'if not os.path.exists(__file__ + ".fast"): time.sleep(600)'
    program = slow_program(tmp_path / "slow", slow)
    (tmp_path / "slow.fast").touch()

    async def run() -> None:
        pool = pool_of(folder, program, 2)
        await pool.open()
        (tmp_path / "slow.fast").unlink()
        monkeypatch.setattr(process, "SECONDS_TO_READ", 0.3)
        (first,) = pool._there
        pool._end(first)
        await first.ended()
        async with asyncio.timeout(10):
            found = await asyncio.gather(*(asked(pool, "x") for _ in range(3)))
        assert all(isinstance(error, TimedOut) for error in found)
        assert pool.figures()["starts"] == 2
        await pool.close()

    asyncio.run(run())


def test_files_that_dont_answer(
    folder: Path, tmp_path: Path, monkeypatch: pytest.MonkeyPatch
) -> None:
    """What takes too long is ended nevertheless."""
    program = slow_program(tmp_path / "slow")

    async def run() -> None:
        pool = pool_of(folder, program, 1, 2)
        await pool.open()
        (working,) = pool._there
        monkeypatch.setattr(pool.edition, "found", asyncio.Event().wait)
        watching = asyncio.create_task(pool.watch())
        async with asyncio.timeout(10):
            assert isinstance(await asked(pool, "60000"), TimedOut)
        watching.cancel()
        await working.ended()
        await pool.close()

    asyncio.run(run())


def test_room_for_some_at_once() -> None:
    """Others wait, no longer than they may."""

    async def run() -> None:
        room = Room(0.1)
        async with AsyncExitStack() as taken:
            for _ in range(ABREAST):
                await taken.enter_async_context(room.place())
            with pytest.raises(Problem, match="the turn of this request"):
                await taken.enter_async_context(room.place())
            assert room.is_full() and room.waiting == 0
        for _ in range(ABREAST + 1):
            async with room.place():
                pass

    asyncio.run(run())
