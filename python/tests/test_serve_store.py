"""`olr-tools serve` of a store: the answers are those of the program on the whole map."""

import asyncio
import json
import os
import pytest
import shutil
import signal
import subprocess
import time
from collections.abc import Iterator
from pathlib import Path

import olr
from asking import draw_map
from bad_programs import bad_program
from conftest import Program, by_default
from olr.asking.files import Version
from olr.asking.records import Record
from olr.model.questions import NUMBERS
from olr.regions.making import make_store_of_folder
from olr.serving import store_map
from olr.serving.bodies import Records
from olr.serving.limits import Limits
from olr.serving.process import Answer
from olr.serving.queries import asked_of
from runs import Town
from servers import Server, ask_all, expected_of, path_of, serving, wait_until


@pytest.fixture(scope="module")
def texts(town: Town) -> list[str]:
    """References on the map."""
    return [line.partition("\t")[2] for line in town.plain.read_text().splitlines()]


@pytest.fixture(scope="module")
def server(
    program: Program, town: Town, tmp_path_factory: pytest.TempPathFactory
) -> Iterator[Server]:
    """A server on the store."""
    with serving(program.path, town.store, tmp_path_factory.mktemp("log") / "log") as found:
        yield found


@pytest.mark.parametrize("what", NUMBERS)
def test_answers(what: str, server: Server, program: Program, town: Town, texts: list[str]) -> None:
    some = texts[:40]
    expected = expected_of(program, town.folder, what, some)
    replies = asyncio.run(ask_all(server, [path_of(what, text) for text in some], 4))
    assert all(it.agrees(reply) for it, reply in zip(expected, replies, strict=True))


def test_options(server: Server, program: Program, town: Town, texts: list[str]) -> None:
    """One process answers, whatever the tolerances."""
    for radius in (50, 60, 70, 80, 90, 50):
        words = ("--radius", radius, "--most", 2)
        for text, expected in zip(
            texts[1:4], expected_of(program, town.folder, "places", texts[1:4], *words)
        ):
            assert expected.agrees(server.get(path_of("places", text, radius=radius, most=2)))
    commands = [Path(f"/proc/{one}/cmdline").read_bytes() for one in server.programs()]
    assert sum(b"\0answer\0" in one for one in commands) == 1


@pytest.mark.parametrize("what", ["match", "places"])
def test_streamed(what: str, server: Server, program: Program, town: Town) -> None:
    """With records of each kind that has no answer."""
    records = b"\n".join(town.messages.read_bytes().split(b"\n")[:40])
    words = by_default(program.path, "batch", what, "--map", town.folder)
    expected = subprocess.run(words, input=records, capture_output=True, check=True).stdout
    for body in (records, (records[at : at + 999] for at in range(0, len(records), 999))):
        reply = server.get(f"/batch/{what}", "POST", body, Content_Type="text/plain")
        assert reply.status == 200 and reply.body == expected


def test_pages_behind_cursors(server: Server, town: Town, texts: list[str]) -> None:
    """They are those of the folder, but the cursors have no mark: it would name a part of the map."""
    with olr.Map(town.folder) as folder:
        followed = 0
        for number, text in enumerate(texts[:60]):
            after = json.loads(server.get(path_of("match", text, page=1)).body).get("next")
            if after is None:
                continue
            page = json.loads(server.get(path_of("match", text, page=1, after=after)).body)
            found = folder.match(text, page=1, after=after)
            assert page["matchings"][0]["cursor"] == found.matchings[0].cursor, number
            assert page["next"] is None or "@" not in page["next"]
            followed += 1
    assert followed > 2


def test_features_and_scenes(
    server: Server, program: Program, town: Town, texts: list[str], tmp_path: Path
) -> None:
    """They are those of the folder."""
    with serving(program.path, town.folder, tmp_path / "log") as folder:
        for text in texts[1:6]:
            for what, accept in (
                ("match", "application/geo+json"),
                ("places", "application/geo+json"),
                ("scene", "*/*"),
            ):
                path = path_of(what, text)
                expected, found = folder.get(path, Accept=accept), server.get(path, Accept=accept)
                assert found.status == expected.status
                wanted, got = json.loads(expected.body), json.loads(found.body)
                for one in (wanted, got):
                    # A store has other lines around in another order.
                    one.pop("lines", None), one.pop("cut", None), one.pop("command", None)
                assert got == wanted


def test_health(server: Server, town: Town) -> None:
    about = json.loads(server.get("/health").body)
    assert about["able"] and about["map"] == town.store.name and not about["changed"]
    with olr.Map(town.store) as store:
        assert about["digest"]["network"] == store.network().digest


def test_another_store_in_its_place(
    program: Program, town: Town, texts: list[str], tmp_path: Path
) -> None:
    """It is served after the signal; until then the server can't answer."""
    store = Path(shutil.copy(town.store, tmp_path / "map.gpkg"))
    other = draw_map(tmp_path / "other", 1400, 2900)
    make_store_of_folder(other, tmp_path / "other.gpkg")
    path = path_of("match", texts[1])
    with serving(program.path, store, tmp_path / "log") as server:
        assert server.get(path).status == 200
        os.replace(tmp_path / "other.gpkg", store)
        assert server.get(path).problem()[:2] == (503, "MapRefused")
        assert (server.get("/health").status, server.get("/ready").status) == (200, 503)
        server.signal(signal.SIGHUP)
        wait_until(lambda: server.get("/ready").status == 200)
        (expected,) = expected_of(program, other, "match", texts[1:2])
        assert expected.agrees(server.get(path))
        store.write_bytes(b"x")
        server.signal(signal.SIGHUP)
        wait_until(lambda: "aren't read anew" in server.log())
        assert str(tmp_path) not in server.get(path).body.decode()


def test_a_program_that_hangs(
    program: Program, town: Town, texts: list[str], tmp_path: Path
) -> None:
    """That request is refused, the next ones are answered, and nothing is left behind."""
    bad = bad_program(tmp_path / "bad", program, {texts[1]: "hangs", texts[2]: "is killed"})
    with serving(bad, town.store, tmp_path / "log", "--time-limit", 2) as server:
        assert server.get(path_of("match", texts[1])).problem()[:2] == (504, "TimedOut")
        assert server.get(path_of("match", texts[2])).problem()[:2] == (503, "ProgramFailed")
        (expected,) = expected_of(program, town.folder, "match", texts[3:4])
        assert expected.agrees(server.get(path_of("match", texts[3])))
        refused = server.get("/batch/match", "POST", f"{texts[1]}\n", Content_Type="text/plain")
        assert refused.problem()[:2] == (504, "TimedOut")


def test_many_that_are_shown(program: Program, town: Town, monkeypatch: pytest.MonkeyPatch) -> None:
    """No more processes run at once than may."""
    running: list[int] = [0]
    most: list[int] = [0]

    async def printed(*_: object) -> bytes:
        running[0] += 1
        most[0] = max(most[0], running[0])
        await asyncio.sleep(0.01)
        running[0] -= 1
        return b"{}"

    monkeypatch.setattr(store_map, "printed_by", printed)
    monkeypatch.setattr(store_map, "find_program", lambda: program.path)

    async def show() -> None:
        served = store_map.StoreMap(town.store, Limits())
        await asyncio.gather(*(served.show(b"x") for _ in range(40)))
        await served.close()

    asyncio.run(show())
    assert most == [store_map.MOST_SHOWN]


def test_records_of_a_stream_are_asked_one_by_one(
    program: Program, town: Town, monkeypatch: pytest.MonkeyPatch
) -> None:
    """So none has waited for too long, however many come at once."""
    monkeypatch.setattr(store_map, "find_program", lambda: program.path)

    def asked(*_: object) -> Answer:
        time.sleep(0.2)
        return Answer(b"{}", None, Version("one", None))

    async def body() -> Records:
        yield [Record(number, b"x") for number in range(6)]

    async def run() -> int:
        served = store_map.StoreMap(town.store, Limits(time=0.6))
        monkeypatch.setattr(served, "_asked", asked)
        monkeypatch.setattr(served, "version", lambda: Version("one", None))
        lots = [lot async for lot in served.batch(asked_of("match", {}, 10), body())]
        await served.close()
        return sum(map(len, lots))

    assert asyncio.run(run()) == 6


def test_what_is_no_store(program: Program, tmp_path: Path) -> None:
    (tmp_path / "map.gpkg").write_bytes(b"x")
    with pytest.raises(AssertionError, match="map.gpkg"):
        with serving(program.path, tmp_path / "map.gpkg", tmp_path / "log"):
            pass
