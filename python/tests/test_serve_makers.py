"""What `olr-tools serve` has made by processes of its own: GeoJSON, scenes and rows, when these processes fail, and when nobody waits for them."""

import asyncio
import errno
import gzip
import json
import os
import pickle
import pytest
import shutil
import signal
import socket
import subprocess
import sys
import tempfile
import time
from collections.abc import Callable
from concurrent.futures import ThreadPoolExecutor
from contextlib import suppress
from pathlib import Path
from typing import IO, Any, cast

from asking import draw_map, draw_references
from conftest import Program
from fake_pool import run_within
from olr.asking.files import MapFiles, Version
from olr.errors import MapRefused, ProgramEnded, ToolError
from olr.matching.rows import Ground
from olr.model.fault import Fault
from olr.model.map_folder import read_map
from olr.model.road_map import Origin
from olr.model.sources import IDS, write_origins
from olr.regions.making import make_store_of_folder
from olr.regions.store import Store
from olr.serving import files, maker
from olr.serving.ground import Grounds
from olr.serving.limits import Limits
from olr.serving.makers import Makers, _Maker
from olr.serving.problems import Problem
from olr.serving.tasks import FeaturesTask, MapVersion
from servers import children_of, is_running, path_of, serving, started, wait_until
from test_run_disks import Disk, disk

__all__ = ["disk"]
GEOJSON = {"Accept": "application/geo+json"}
PAGE = b'{"matchings":[],"next":null}'


def tasks_of(process: int) -> list[int]:
    """The processes that those of a server's own have forked."""
    return [forked for one in makers_of(process) for forked in children_of(one)]


def makers_of(process: int) -> list[int]:
    """The processes of a server that are its own."""
    return [one for one in children_of(process) if b"olr.serving.maker" in words_of(one)]


def words_of(process: int) -> bytes:
    """The words of a process; none if it has ended."""
    with suppress(OSError):
        return Path(f"/proc/{process}/cmdline").read_bytes()
    return b""


@pytest.fixture(scope="module")
def drawn(tmp_path_factory: pytest.TempPathFactory) -> Path:
    """A drawn map."""
    return draw_map(tmp_path_factory.mktemp("drawn"))


@pytest.fixture(scope="module")
def text(drawn: Path) -> str:
    """A reference on it."""
    return draw_references(drawn, 2)[1]


@pytest.fixture(scope="module")
def map(drawn: Path) -> MapVersion:
    """Its version."""
    there = MapFiles.of_folder(drawn)
    return MapVersion(tuple(there.paths()), there.found())


def task_of(answer: bytes = PAGE, candidates: "bytes | Fault" = Fault("Empty")) -> FeaturesTask:
    """GeoJSON of an answer to `match`."""
    return FeaturesTask("match", answer, candidates)


def with_makers(run: "Callable[[Makers], Any]") -> Any:
    """What is given by what asks makers, which end then."""

    async def asked() -> Any:
        asked = Makers(Limits())
        try:
            return await run(asked)
        finally:
            await asked.close()
            wait_until(lambda: not makers_of(os.getpid()))

    return run_within(asked())


async def made_of(asked: Makers, map: MapVersion, task: FeaturesTask) -> bytes:
    """The answer to a task."""
    with await asked.made(map, task) as file:
        return file.read()


def test_no_numpy() -> None:
    """The server starts without it, and without what reads maps."""
    names = "numpy", "sqlite3", "olr.geometry.network"
    words = f"import sys, olr.commands.serve; print([it for it in {names} if it in sys.modules])"
    said = subprocess.run([sys.executable, "-c", words], capture_output=True, check=True)
    assert said.stdout == b"[]\n"


def test_answers_in_pieces(drawn: Path, text: str, program: Program, tmp_path: Path) -> None:
    """Those in a file of many pieces are whole, also as gzip."""
    with serving(program.path, drawn, tmp_path / "log") as server:
        path = path_of("match", text, page=100, radius=300, percent=60)
        whole = server.get(path, **GEOJSON)
        assert len(whole.body) > 3 * files.PIECE and json.loads(whole.body)["features"]
        assert whole.headers["content-length"] == str(len(whole.body))
        packed = server.get(path, **GEOJSON, Accept_Encoding="gzip")
        assert gzip.decompress(packed.body) == whole.body


def test_a_client_that_leaves_while_the_maker_ends(
    map: MapVersion, monkeypatch: pytest.MonkeyPatch
) -> None:
    """The next one is answered all the same, by another maker."""

    async def run(asked: Makers) -> None:
        await made_of(asked, map, task_of())
        while tasks_of(os.getpid()):
            await asyncio.sleep(0.05)
        (maker,) = makers_of(os.getpid())
        os.kill(maker, signal.SIGKILL)
        # A process that is killed has no words any more, but may have its sockets still, until it is waited for.
        while Path(f"/proc/{maker}").exists():
            await asyncio.sleep(0.05)
        is_waited_for = asyncio.Event()

        async def ended(maker: _Maker) -> None:
            maker.control.close()
            is_waited_for.set()
            await asyncio.Event().wait()

        with monkeypatch.context() as patched:
            patched.setattr(_Maker, "ended", ended)
            leaving = asyncio.create_task(made_of(asked, map, task_of()))
            await is_waited_for.wait()
            leaving.cancel()
            await asyncio.wait([leaving])
        assert json.loads(await made_of(asked, map, task_of()))["features"]

    with_makers(run)


def test_processes_that_wait(map: MapVersion) -> None:
    """One serves again, in place of a new one, and ends when nothing comes."""

    async def run(asked: Makers) -> None:
        for _ in range(3):
            assert json.loads(await made_of(asked, map, task_of()))["features"]
        assert len(tasks_of(os.getpid())) == 1
        while tasks_of(os.getpid()):
            await asyncio.sleep(0.05)

    with_makers(run)


def test_an_answer_that_is_shorter_than_its_task(map: MapVersion) -> None:
    """Nothing is left behind it."""
    task = task_of(candidates=b'{"points":[%b]}' % (b" " * 10_000))

    async def run(asked: Makers) -> None:
        made = await made_of(asked, map, task)
        assert json.loads(made)["features"] and len(made) < 10_000

    with_makers(run)


def test_versions_of_a_map(drawn: Path, tmp_path: Path) -> None:
    """Where another version takes the place of the one that is there, its lines came from elsewhere: what was read stays, and nobody reads what
    isn't of the version that answers."""
    folder = Path(shutil.copytree(drawn, tmp_path / "map"))
    store, line = tmp_path / "map.gpkg", read_map(drawn).lines[0].id
    grounds = Grounds()

    def named(name: str) -> MapVersion:
        write_origins(folder / IDS, [Origin(line, "w1", "forward", 0, name)], ())
        there = MapFiles.of_folder(folder)
        return MapVersion(tuple(there.paths()), there.found())

    def name_in(map: MapVersion) -> str:
        return grounds.of(map).sources()[line].name

    old = named("Old Street")
    assert name_in(old) == "Old Street"
    with (folder / "lines.csv").open("a") as stream:
        stream.write("\n")
    new = named("New Street")
    assert [name_in(it) for it in (old, new, new)] == ["Old Street", "New Street", "New Street"]
    with pytest.raises(MapRefused):
        name_in(old)
    make_store_of_folder(folder, store)
    (folder / IDS).write_text("line")
    with pytest.raises(ToolError, match="doesn't begin"):
        name_in(new)
    with Store.open(store) as opened:
        map = MapVersion((store,), Version(opened.digest, None))
    assert name_in(map) == "New Street"
    with pytest.raises(MapRefused):
        name_in(map._replace(version=Version("0", None)))

    async def run(asked: Makers) -> None:
        # What has no lines is made all the same.
        for map in (old, new, old):
            await made_of(asked, map, task_of())
        while tasks_of(os.getpid()):
            await asyncio.sleep(0.05)

    with_makers(run)


def test_a_defect(map: MapVersion, capfd: pytest.CaptureFixture[str]) -> None:
    """What went wrong is on standard error, and the next answer is made."""

    async def run(asked: Makers) -> None:
        with pytest.raises(RuntimeError):
            await made_of(asked, map, task_of(b"{"))
        await made_of(asked, map, task_of())

    with_makers(run)
    assert "Traceback" in capfd.readouterr().err


@pytest.mark.parametrize(
    ("error", "status", "said"),
    [
        (MemoryError(), 422, "too much memory"),
        (OSError(errno.EFBIG, "File too large"), 422, "134,217,728 bytes"),
        (OSError(errno.ENOSPC, "No space left on device"), 503, "can't be kept"),
    ],
)
def test_why_there_is_no_answer(
    error: Exception, status: int, said: str, map: MapVersion, monkeypatch: pytest.MonkeyPatch
) -> None:
    async def fail(*_: object) -> None:
        raise error

    monkeypatch.setattr(Makers, "_make", fail)
    with pytest.raises(Problem, match=said) as caught:
        run_within(made_of(Makers(Limits()), map, task_of()))
    assert caught.value.status == status


def test_a_client_that_left(map: MapVersion) -> None:
    """The process that works for it ends, and nobody waits for that."""

    async def run(asked: Makers) -> None:
        await made_of(asked, map, task_of())
        (one,) = tasks_of(os.getpid())
        os.kill(one, signal.SIGSTOP)
        waiting = asyncio.create_task(made_of(asked, map, task_of()))
        await asyncio.sleep(0.1)
        waiting.cancel()
        with pytest.raises(asyncio.CancelledError):
            await waiting
        os.kill(one, signal.SIGCONT)
        while is_running(one):
            await asyncio.sleep(0.02)
        await made_of(asked, map, task_of())

    with_makers(run)


def test_makers_that_are_killed(map: MapVersion, caplog: pytest.LogCaptureFixture) -> None:
    """What was asked of them has an error, and the next answer is made by others."""

    async def run(asked: Makers) -> None:
        await made_of(asked, map, task_of())
        for name in (tasks_of, makers_of):
            there = [*tasks_of(os.getpid()), *makers_of(os.getpid())]
            for one in there:
                os.kill(one, signal.SIGSTOP)
            if name is makers_of:
                for one in tasks_of(os.getpid()):
                    os.kill(one, signal.SIGKILL)
                while tasks_of(os.getpid()):
                    await asyncio.sleep(0.02)
            waiting = asyncio.create_task(made_of(asked, map, task_of()))
            await asyncio.sleep(0.1)
            for one in name(os.getpid()):
                os.kill(one, signal.SIGKILL)
            with pytest.raises(ProgramEnded):
                await waiting
            for one in there:
                with suppress(ProcessLookupError):
                    os.kill(one, signal.SIGCONT)
            await made_of(asked, map, task_of())

        (alone,) = makers_of(os.getpid())
        os.kill(alone, signal.SIGKILL)
        while is_running(alone):
            await asyncio.sleep(0.02)
        # One is made by the process that waits still.
        await asyncio.gather(*(made_of(asked, map, task_of()) for _ in range(2)))

    with_makers(run)
    assert "ended with the status -9" in caplog.text


class Working:
    """A process that makes an answer in a way of its own, as one that a maker forked."""

    def __init__(self, make: Callable[..., None], file: IO[bytes], limit: int = 1 << 16) -> None:
        """It may write `limit` bytes."""
        self.server, asked = socket.socketpair(socket.AF_UNIX, socket.SOCK_SEQPACKET)
        self.pid = os.fork()
        if self.pid == 0:
            self.server.close()
            setattr(maker, "_make", make)
            setattr(maker, "MOST_MADE", limit)
            maker._work(asked, cast(Ground, None))
        asked.close()
        pickle.dump(task_of(), file)
        file.flush()
        socket.send_fds(self.server, [b"."], [file.fileno()])

    def answer(self) -> Any:
        """What it sends."""
        return pickle.loads(self.server.recv(65_536))

    def end(self) -> None:
        """Closes the socket, and waits until it has ended."""
        self.server.close()
        try:
            wait_until(lambda: os.waitpid(self.pid, os.WNOHANG)[0] == self.pid, 10)
        except AssertionError:
            os.kill(self.pid, signal.SIGKILL)
            raise


def test_a_process_that_works_ends_with_its_client() -> None:
    """What it has begun is cleared away."""
    begun, ended = (tempfile.TemporaryFile() for _ in range(2))

    def sleep(*_: object) -> None:
        try:
            begun.write(b"x")
            begun.flush()
            time.sleep(600)
        finally:
            ended.write(b"x")
            ended.flush()

    with begun, ended, tempfile.TemporaryFile() as file:
        working = Working(sleep, file)
        wait_until(lambda: os.fstat(begun.fileno()).st_size == 1)
        working.end()
        assert os.fstat(ended.fileno()).st_size == 1


def take_memory(*_: object) -> None:
    """Takes more than a process may."""
    bytearray(2 * maker.MOST_MEMORY)


def write_much(_: object, __: object, file: IO[bytes]) -> None:
    """Writes more than a process may."""
    file.write(b"x" * (1 << 17))


@pytest.mark.parametrize(("make", "error"), [(take_memory, MemoryError), (write_much, OSError)])
def test_limits_of_a_process(make: Callable[..., None], error: type[Exception]) -> None:
    """What goes beyond them is refused, and what comes then is answered."""
    with tempfile.TemporaryFile() as file:
        working = Working(make, file)
        found = working.answer()
        assert isinstance(found, error)
        assert getattr(found, "errno", errno.EFBIG) == errno.EFBIG
        working.end()


def test_a_server_that_is_killed(drawn: Path, text: str, program: Program, tmp_path: Path) -> None:
    """Nothing of it is left; of another one neither, whose processes were killed before."""
    path = path_of("match", text)
    with serving(program.path, drawn, tmp_path / "log") as server:
        for _ in range(2):
            made = server.get(path, **GEOJSON)
            assert made.status == 200
            there = [*makers_of(server.process.pid), *tasks_of(server.process.pid)]
            assert len(there) == 2
            for one in there:
                os.kill(one, signal.SIGKILL)
            wait_until(lambda: not [one for one in there if is_running(one)])
        assert server.get(path, **GEOJSON).body == made.body
        there = [*server.programs(), *tasks_of(server.process.pid)]
        server.process.kill()
        server.process.wait()
        wait_until(lambda: not [one for one in there if is_running(one)])


def test_a_disk_that_is_full(
    disk: Disk,
    drawn: Path,
    text: str,
    program: Program,
    tmp_path: Path,
    monkeypatch: pytest.MonkeyPatch,
) -> None:
    """What can't be kept isn't answered, and all else is."""
    options = {"page": 100, "radius": 300, "percent": 60}
    monkeypatch.setenv("TMPDIR", str(disk.folder))
    with serving(program.path, drawn, tmp_path / "log") as server:
        path = path_of("match", text, **options)
        size = len(server.get(path).body)
        for room in ("8k", f"{size * 5 // 4096}k"):
            disk.resize(room)
            refused = server.get(path, **GEOJSON)
            assert refused.problem() == (503, "Busy", "the answer can't be kept")
            assert "retry-after" in refused.headers
        assert server.get(path_of("match", "CwVG"), **GEOJSON).problem()[1] == "BadLength"
        assert "No space left on device" in server.log()
        disk.resize("100m")
        assert len(server.get(path, **GEOJSON).body) > size
        assert disk.names() == []


def test_worst_requests(drawn: Path, program: Program, tmp_path: Path) -> None:
    """Four of each at once: the server itself has little of what is made, but answers with coordinates of which GeoJSON is made. `bench/serve.py
    --large` measures those of the largest map."""
    text = draw_references(drawn, 7)[6]
    path = path_of("match", text, radius=400, percent=100, slack=10_000, page=1000)
    values = b"[".ljust(1 << 24)
    with serving(program.path, drawn, tmp_path / "log", begin=started) as server:

        def ask(number: int) -> int:
            if number < 4:
                return len(server.get(path, **GEOJSON).body)
            reply = server.get("/messages?format=json", "POST", values)
            assert reply.problem()[:2] == (422, "UnreadableList")
            return len(values)

        with ThreadPoolExecutor(8) as threads:
            sizes = list(threads.map(ask, range(8)))
        assert min(sizes) > 4_000_000
        text = Path(f"/proc/{server.process.pid}/status").read_text()
        assert int(text.partition("VmHWM:")[2].split()[0]) < 110_000
