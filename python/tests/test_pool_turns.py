"""Who is answered next by the pool of `olr-tools serve`, and when: by a clock that the tests set, with made-up processes."""

import asyncio
import gc
import pytest

from fake_pool import FakePool, ends_of, run_within, turns
from olr.serving.limits import ABREAST
from olr.serving.problems import Problem
from olr.serving.process import SECONDS_LONG

LONG = SECONDS_LONG + 0.1


def test_processes_are_started_one_at_a_time(monkeypatch: pytest.MonkeyPatch) -> None:
    """While something waits and there are fewer than there may be. A request goes to the one that has the fewest."""

    async def run() -> None:
        fake = FakePool(monkeypatch, workers=3)
        (first,) = await fake.ready()
        asked = [fake.asked("x", client=f"{number}") for number in range(ABREAST)]
        await turns()
        assert len(first.requests) == ABREAST and fake.started == [first]
        asked += [fake.asked("x", client=f"{number}") for number in range(3 * ABREAST)]
        await turns()
        assert len(fake.started) == 2
        await fake.started[1].read()
        assert len(fake.started[1].requests) == ABREAST and len(fake.started) == 3
        await fake.started[2].read()
        figures = fake.pool.figures()
        assert (figures["working"], figures["idle"], figures["waiting"]) == (3, 0, ABREAST)
        fake.started[1].answer(3)
        assert [len(one.requests) for one in fake.started] == [ABREAST] * 3
        fake.started[2].answer(3)
        fake.started[1].answer()
        asked.append(fake.asked("y"))
        await turns()
        assert fake.started[2].texts[-1] == b"y"
        await fake.close(*asked)

    run_within(run())


def test_clients_take_turns(monkeypatch: pytest.MonkeyPatch) -> None:
    """One that asks once doesn't wait for all that another one asked before."""

    async def run() -> None:
        fake = FakePool(monkeypatch, workers=1)
        (first,) = await fake.ready()
        asked = [fake.asked(f"{number}", client="a") for number in range(20)]
        await turns()
        asked += [fake.asked(text, client=text) for text in "bc"]
        await turns()
        while first.requests:
            first.answer()
        assert first.texts[:8] == [b"0", b"1", b"2", b"3", b"b", b"c", b"4", b"5"]
        assert len(await asyncio.gather(*asked)) == 22

    run_within(run())


@pytest.mark.parametrize("workers, share", [(1, 1), (2, 1), (4, 3)])
def test_a_client_leaves_a_process(
    workers: int, share: int, monkeypatch: pytest.MonkeyPatch
) -> None:
    """To others, if there are two or more: these are answered while its questions take long."""

    async def run() -> None:
        fake = FakePool(monkeypatch, workers)
        processes = await fake.ready(workers)
        asked = [fake.asked("long", client="a") for _ in range(workers * ABREAST)]
        await turns()
        assert sum(1 for one in processes if one.requests) == share
        assert sum(len(one.requests) for one in processes) == share * ABREAST
        await fake.after(LONG)
        assert fake.pool.figures()["waiting"] == (workers - share) * ABREAST
        quick = fake.asked("quick", client="b")
        await turns()
        if workers > 1:
            processes[-1].answer()
            assert await quick == b"quick"
        await fake.close(*asked, quick)

    run_within(run())


def test_nothing_waits_behind_what_takes_long(monkeypatch: pytest.MonkeyPatch) -> None:
    """After a second another process is asked; that the first one answers it too is heard by nobody."""

    async def run() -> None:
        fake = FakePool(monkeypatch, workers=2)
        first, second = await fake.ready(2)
        fill = [fake.asked("fill", client="c") for _ in range(ABREAST)]
        await turns()
        long, quick = fake.asked("long", client="a"), fake.asked("quick", client="b")
        await turns()
        assert (first.texts[-1], second.texts) == (b"fill", [b"long", b"quick"])
        first.answer(ABREAST)
        await fake.after(LONG - 0.2)
        assert len(first.requests) == 0
        await fake.after(0.2)
        assert first.texts[-1] == b"quick"
        first.answer()
        assert await quick == b"quick"
        more = fake.asked("more", client="b")
        await turns()
        assert first.texts[-1] == b"more"
        second.answer(2)
        assert await long == b"long" and second.texts == [b"long", b"quick"]
        await fake.close(more, *fill)

    run_within(run())


def test_what_was_taken_back_is_asked_once_of_a_process(monkeypatch: pytest.MonkeyPatch) -> None:
    """If the one that it was taken from is free before others."""

    async def run() -> None:
        fake = FakePool(monkeypatch, workers=1)
        (first,) = await fake.ready()
        long, quick = fake.asked("long", client="a"), fake.asked("quick", client="b")
        await turns()
        await fake.after(LONG)
        assert fake.pool.figures()["waiting"] == 1
        first.answer()
        assert first.texts == [b"long", b"quick"] and fake.pool.figures()["waiting"] == 0
        first.answer()
        assert [await long, await quick] == [b"long", b"quick"]

    run_within(run())


def test_what_takes_too_long(monkeypatch: pytest.MonkeyPatch) -> None:
    """The request that a process works at is refused when its time is over, and those behind it are asked again; and those that wait for a
    process, but for those of streams, which wait for others of the same stream."""

    async def run() -> None:
        fake = FakePool(monkeypatch, workers=1, seconds=10)
        (first,) = await fake.ready()
        asked = [fake.asked(f"{number}") for number in range(ABREAST + 1)]
        late, in_stream = fake.asked("late"), fake.asked("in stream", is_in_stream=True)
        await turns()
        await fake.after(5)
        first.answer()
        await fake.after(4.9)
        assert not late.done()
        await fake.after(0.2)
        with pytest.raises(Problem, match="no process was free for 10 seconds"):
            await late
        await fake.after(4.8)
        assert await asked[0] == b"0" and not asked[1].done()
        await fake.after(0.2)
        error = await asyncio.gather(asked[1], return_exceptions=True)
        assert "answered nothing for 10 seconds" in str(error[0])
        assert ends_of(fake.pool) == {"time": 1} and fake.there() == fake.started[1:]
        await fake.started[1].read()
        assert fake.started[1].texts == [b"2", b"3", b"4", b"in stream"]
        fake.started[1].answer(4)
        assert await asyncio.gather(*asked[2:], in_stream) == [b"2", b"3", b"4", b"in stream"]

    run_within(run())


def test_clients_that_left(monkeypatch: pytest.MonkeyPatch) -> None:
    """What they asked isn't given to a process, and doesn't wait. A process that works for one for half a second is ended, and what waits
    behind is asked again."""

    async def run() -> None:
        fake = FakePool(monkeypatch, workers=1)
        (first,) = await fake.ready()
        asked = [fake.asked(f"{number}") for number in range(ABREAST)]
        left, last, waiting = (fake.asked(text) for text in ("left", "last", "waiting"))
        await turns()
        left.cancel()
        await turns()
        first.answer()
        assert first.texts == [b"0", b"1", b"2", b"3", b"last"]
        waiting.cancel()
        asked[1].cancel()
        await turns()
        await fake.after(0.4)
        assert fake.there() == [first] and fake.pool.figures()["waiting"] == 0
        await fake.after(0.2)
        (second,) = fake.there()
        await second.read()
        assert second.texts == [b"2", b"3", b"last"] and not ends_of(fake.pool)
        await fake.close(*asked, last)

    run_within(run())


def test_the_end(monkeypatch: pytest.MonkeyPatch) -> None:
    """What is asked and what waits is refused, and so is what is asked later. Nothing is logged of what nobody hears."""

    async def run() -> None:
        heard: list[object] = []
        asyncio.get_running_loop().set_exception_handler(lambda _, about: heard.append(about))
        fake = FakePool(monkeypatch, workers=1)
        await fake.ready()
        asked = [fake.asked("x") for _ in range(ABREAST + 1)]
        gone = fake.asked("gone")
        await turns()
        gone.cancel()
        await fake.pool.close()
        asked.append(fake.asked("z"))
        for one in asked:
            with pytest.raises(Problem, match="the server ends"):
                await one
        fake.started.clear()
        gc.collect()
        assert not heard

    run_within(run())
