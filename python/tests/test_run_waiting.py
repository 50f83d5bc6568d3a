"""`olr-tools run` whose workers or scheduler end, wait or are limited: what is said of it."""

import pytest
import time
from collections.abc import Iterator
from contextlib import contextmanager
from distributed import Client, Event, Status

from forked import Forked
from olr.running import waiting
from olr.running.waiting import limited_workers, what_is_waited_for
from runs import Runs, without_progress
from schedulers import Scheduler

pytestmark = pytest.mark.filterwarnings("ignore:make_current is deprecated")


@contextmanager
def asked_run(runs: Runs, scheduler: Scheduler, name: str) -> Iterator[Forked]:
    """A run with a scheduler, once a worker of it has asked the program, which waits."""
    runs.out, runs.joined = runs.folder / name, runs.folder / f"{name}.jsonl"
    for file in ("asked", "go"):
        (runs.folder / file).unlink(missing_ok=True)
    words = ["--per-group", 60, "--scheduler", scheduler.address, "--join", runs.joined]
    with runs.started(*words, program=runs.waiting()) as run:
        runs.await_asked(run)
        yield run


def test_all_workers_and_then_the_scheduler_are_killed(runs: Runs) -> None:
    """A run without workers waits, and goes on when others come. That the memory of the first one has a limit is said at once. A run without
    its scheduler says one message, and goes on without it."""
    with Scheduler(runs, runs.waiting()) as scheduler:
        scheduler.add_worker(memory="1GB")
        with Client(scheduler.address) as client:
            client.wait_for_workers(1, timeout=600)
        with asked_run(runs, scheduler, "one") as run:
            scheduler.processes[1].kill()
            (runs.folder / "go").touch()
            scheduler.add_worker()
            assert run.wait(300) == 0
        stderr = without_progress(run.errors.read_text())
        assert stderr.count("\n") == 1
        limited = "1 of 1 workers have a limit of memory, near which Dask pauses them: "
        assert stderr.startswith(limited)
        assert "start dask-worker with --memory-limit 0: tcp://127.0.0.1:" in stderr
        assert runs.joined.read_bytes() == runs.expected()
        with asked_run(runs, scheduler, "other") as run:
            scheduler.kill()
            assert run.wait(300) == 1
            said = f"olr-tools: {runs.out}: the scheduler ended: go on by --resume\n"
            assert without_progress(run.errors.read_text()) == said
            assert run.stdout.read() == ""
        (runs.folder / "go").touch()
    runs.await_end()
    words = ["--per-group", 60, "--resume", "--join", runs.joined]
    ended = runs.run_here(*words, program=runs.folder / "waiting")
    assert (ended.status, ended.stderr) == (0, "")
    assert runs.joined.read_bytes() == runs.expected()


def test_what_is_waited_for(runs: Runs, monkeypatch: pytest.MonkeyPatch) -> None:
    """With workers without a limit of their memory: busy ones with a task of three groups each, one that is paused, and none."""
    monkeypatch.setattr(waiting, "SECONDS_TO_ANSWER", 60)
    with Scheduler(runs) as scheduler:
        for _ in range(2):
            scheduler.add_worker()
        with Client(scheduler.address) as client:
            client.wait_for_workers(2, timeout=600)
            assert limited_workers(client) is None
            event = Event("end", client=client)
            futures = client.map(lambda _: event.wait(), range(2), pure=False)
            groups = dict.fromkeys(futures, 3)
            addresses = sorted(client.scheduler_info()["workers"])
            while "2 workers" not in what_is_waited_for(client, groups):
                time.sleep(0.1)
            said = what_is_waited_for(client, groups)
            one, two = addresses
            assert said in {
                f"6 groups are left, 6 of them with 2 workers: {first} has 3, {second} has 3"
                for first, second in ((one, two), (two, one))
            }
            client.run(pause, workers=[one])
            while "paused" not in what_is_waited_for(client, groups):
                time.sleep(0.1)
            assert what_is_waited_for(client, groups) == (
                f"{said}; paused by Dask near the limit of their memory: {one}: "
                "start dask-worker with --memory-limit 0"
            )
            event.set()
            client.gather(futures)
            assert "0 groups are left, and no worker has one; paused" in what_is_waited_for(
                client, groups
            )
            for process in scheduler.processes[1:]:
                process.kill()
            while client.scheduler_info()["workers"]:
                time.sleep(0.1)
            # Their results were with the workers, so they are left again as soon as the client knows.
            assert what_is_waited_for(client, groups).endswith(
                " groups are left, and the scheduler has no workers: start dask-worker"
            )
    assert what_is_waited_for(client, {}) == "0 groups are left, and the scheduler doesn't answer"


def pause(dask_worker: object) -> None:
    """What Dask does to a worker that has too much memory."""
    dask_worker.status = Status.paused  # type: ignore[attr-defined]
