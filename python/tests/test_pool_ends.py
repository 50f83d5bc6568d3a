"""What the pool of `olr-tools serve` does where processes end, don't read the map, or the files change: with made-up processes."""

import asyncio
import pytest
from typing import cast

from fake_pool import FakeEdition, FakePool, ended, ends_of, run_within, turns
from olr.errors import MapRefused, ProgramEnded, TimedOut
from olr.serving.edition import Edition
from olr.serving.limits import ABREAST


def test_a_process_that_ends(monkeypatch: pytest.MonkeyPatch) -> None:
    """What it left is asked once more, in its order. The request at which processes end twice is refused."""

    async def run() -> None:
        fake = FakePool(monkeypatch, workers=1)
        (first,) = await fake.ready()
        bad, *others = [fake.asked(text) for text in ("bad", "1", "2")]
        await turns()
        first.fail(ended())
        await turns()
        await fake.started[1].read()
        assert fake.started[1].texts == [b"bad", b"1", b"2"]
        fake.started[1].fail(ended("it ended again"))
        with pytest.raises(ProgramEnded, match="it ended again"):
            await bad
        await fake.started[2].read()
        assert fake.started[2].texts == [b"1", b"2"]
        fake.started[2].answer(2)
        assert await asyncio.gather(*others) == [b"1", b"2"]
        assert fake.pool.figures()["ended"] == 2

    run_within(run())


@pytest.mark.parametrize("error", [MapRefused("it is refused"), TimedOut("it is late", None)])
def test_the_only_process_doesnt_read_the_map(
    error: MapRefused | TimedOut, monkeypatch: pytest.MonkeyPatch
) -> None:
    """What waits is refused. While the files are others no process is started, and what is asked is refused too; then it is again."""

    async def run() -> None:
        fake = FakePool(monkeypatch, workers=2)
        (first,) = await fake.ready()
        first.fail(ended())
        asked = fake.asked("x")
        await turns()
        fake.started[1].fail(error)
        with pytest.raises(type(error)):
            await asked
        assert len(fake.started) == 2 and not fake.pool.is_able()
        with pytest.raises(type(error)):
            await fake.asked("x")
        await fake.pool.look_at_files()
        await fake.after(1.1)
        asked = fake.asked("x")
        await turns()
        await fake.started[2].read()
        fake.started[2].answer()
        assert await asked == b"x" and fake.pool.is_able()

    run_within(run())


def test_a_process_that_ends_before_it_has_read_the_map(monkeypatch: pytest.MonkeyPatch) -> None:
    """Another one is started for what waits, a second later."""

    async def run() -> None:
        fake = FakePool(monkeypatch, workers=2)
        (first,) = await fake.ready()
        first.fail(ended())
        asked = fake.asked("x")
        await turns()
        fake.started[1].fail(ended())
        await fake.after(0.9)
        assert len(fake.started) == 2
        await fake.after(0.2)
        await fake.started[2].read()
        fake.started[2].answer()
        assert await asked == b"x"

    run_within(run())


def test_one_of_several_that_doesnt_read_the_map(monkeypatch: pytest.MonkeyPatch) -> None:
    """The others answer, and the next one is started a second later; none while the files are refused."""

    async def run() -> None:
        fake = FakePool(monkeypatch, workers=2)
        (first,) = await fake.ready()
        asked = [fake.asked(f"{number}") for number in range(2 * ABREAST)]
        await turns()
        fake.started[1].fail(ended())
        await fake.after(0.9)
        assert len(fake.started) == 2
        await fake.after(0.2)
        assert len(fake.started) == 3
        fake.edition.refused = MapRefused("the files have changed")
        fake.started[2].fail(fake.edition.refused)
        await fake.after(2)
        await fake.pool.look_at_files()
        assert len(fake.started) == 3 and fake.pool.is_able() and fake.pool.is_changed()
        first.answer(2 * ABREAST)
        assert len(await asyncio.gather(*asked)) == 2 * ABREAST

    run_within(run())


def test_a_process_that_reads_the_map_for_long(monkeypatch: pytest.MonkeyPatch) -> None:
    """That isn't the time of a request."""

    async def run() -> None:
        fake = FakePool(monkeypatch, workers=1, seconds=10)
        (first,) = await fake.ready()
        first.fail(ended())
        asked = fake.asked("x")
        await turns()
        await fake.after(11)
        assert not asked.done()
        await fake.started[1].read()
        fake.started[1].answer()
        assert await asked == b"x"

    run_within(run())


def test_files_that_are_read_anew(monkeypatch: pytest.MonkeyPatch) -> None:
    """Processes answer what they were asked, and end; what waits is answered by new ones, also what an old one leaves that ends before."""

    async def run() -> None:
        fake = FakePool(monkeypatch, workers=2)
        first, second = await fake.ready(2)
        asked = [fake.asked(f"{number}", client=f"{number % 2}") for number in range(3 * ABREAST)]
        await turns()
        edition = cast(Edition, FakeEdition())
        renewing = asyncio.create_task(fake.pool.renew(edition))
        await turns()
        new = fake.started[2]
        await new.read()
        await renewing
        assert new.texts == [b"8", b"9", b"10", b"11"]
        first.answer(ABREAST)
        second.answer()
        second.fail(ended())
        await turns()
        assert first not in fake.there()
        while new.requests:
            new.answer()
            await turns()
        for one in fake.started[3:]:
            await one.read()
            one.answer(len(one.requests))
        found = await asyncio.gather(*asked)
        assert found == [b"%d" % number for number in range(3 * ABREAST)]
        assert all(one.edition is edition for one in fake.there())

    run_within(run())


def test_new_files_that_are_refused(monkeypatch: pytest.MonkeyPatch) -> None:
    """All is as it was."""

    async def run() -> None:
        fake = FakePool(monkeypatch, workers=1)
        (first,) = await fake.ready()
        renewing = asyncio.create_task(fake.pool.renew(cast(Edition, FakeEdition())))
        await turns()
        fake.started[1].fail(MapRefused("they are refused"))
        with pytest.raises(MapRefused):
            await renewing
        assert fake.there() == [first] and fake.pool.is_able() and not ends_of(fake.pool)

    run_within(run())
