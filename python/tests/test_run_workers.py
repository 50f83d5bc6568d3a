"""The workers of a run on this machine: they are killed, can't be started, and end with the run, whenever that is."""

import errno
import os
import pytest
import random
import re
import signal
import sys
import threading
import time
from collections import Counter
from collections.abc import Callable
from pathlib import Path

from conftest import Program
from forked import Forked
from olr.__main__ import main
from olr.errors import ToolError
from olr.running import workers
from olr.running.answering import GroupsFailed, answer_groups
from olr.running.workers import Workers, answer_here
from runs import Begun, Runs, Town, assert_resumes, without_progress

KILLS = 20
USES = {"open", "os.mkdir", "os.remove", "os.rmdir", "os.rename", "subprocess.Popen"}
"""Events of Python's audit by which moments are counted."""
GROUPS = ["--per-group", 10]


def claimed(folder: Path, most: int) -> int | None:
    """A number that no other process has, if one of so many is left."""
    for number in range(most):
        try:
            os.mkdir(folder / str(number))
            return number
        except FileExistsError:
            pass
    return None


def doomed_workers(folder: Path) -> Callable[[], None]:
    """The command, whose workers are killed: one, two or all of them, when one of them has just begun, or is about to use the system for the
    n-th time. Twenty times."""

    def doom() -> None:
        number = claimed(folder, KILLS)
        if number is None:
            return
        draw = random.Random(number)
        left, others = draw.choice([0, draw.randint(1, 9), draw.randint(1, 150)]), number % 3

        def kill() -> None:
            run = os.getppid()
            there = Path(f"/proc/{run}/task/{run}/children").read_text().split()
            for other in [int(one) for one in there if int(one) != os.getpid()][:others]:
                os.kill(other, signal.SIGKILL)
            os.kill(os.getpid(), signal.SIGKILL)

        def count(event: str, _: object) -> None:
            nonlocal left
            if event in USES:
                left -= 1
                if not left:
                    kill()

        if left:
            sys.addaudithook(count)
        else:
            kill()

    def command() -> None:
        os.register_at_fork(after_in_child=doom)
        main()

    return command


def test_workers_are_killed(runs: Runs, tmp_path: Path) -> None:
    """All groups are answered in the end, or some have failed because that came three times, and the next run answers these."""
    claims = tmp_path / "claims"
    claims.mkdir()
    words = runs.words("--workers", 3, *GROUPS, "--join", runs.joined)[1:]
    errors = runs.folder / "stderr"
    with Forked(words, runs.environment(), errors, doomed_workers(claims)) as run:
        status = run.wait(120)
    runs.await_end()
    assert len(os.listdir(claims)) == KILLS and os.listdir(runs.scratch) == []
    said = without_progress(errors.read_text())
    if status:
        assert "groups failed" in said and "was ended by signal 9" in said
    assert said.count("\n") == status
    runs.joined.unlink(missing_ok=True)
    assert_resumes(runs, *GROUPS)


@pytest.fixture
def begun(here: None, town: Town, program: Program, tmp_path: Path) -> Begun:
    """A run of eleven groups, of which none is answered."""
    return Begun(town, program, tmp_path / "run", town.messages)


def test_a_worker_that_is_killed_at_each_try(
    begun: Begun, town: Town, program: Program, monkeypatch: pytest.MonkeyPatch
) -> None:
    """Its task has failed then, with the reason. The others are answered."""

    def answer_others(_job: object, task: range, scratch: Path, _kept: object) -> object:
        if 4 in task:
            os.kill(os.getpid(), signal.SIGKILL)
        return answer_groups(begun.job, task, scratch)

    monkeypatch.setattr(workers, "answer_groups", answer_others)
    outcome = answer_here(2, begun.job, begun.grouped)
    assert list(outcome.failed) == [4]
    assert re.fullmatch("a worker on .* was ended by signal 9", outcome.failed[4])
    assert outcome.counts.total() == begun.grouped.records - 28
    monkeypatch.undo()


def children() -> set[str]:
    """The processes that this one has started."""
    return set(Path(f"/proc/{os.getpid()}/task/{os.getpid()}/children").read_text().split())


def test_a_worker_that_is_killed_while_it_has_nothing_to_do(begun: Begun) -> None:
    """Another one takes its place, and nothing has failed."""
    before = children()
    asked = Workers(begun.job, 1, begun.folder.path.parent)
    try:
        done = asked.done([range(0, 1), range(1, 2), range(2, 3)])
        for _ in range(3):
            assert not isinstance(next(done)[1], Exception)
            (worker,) = children() - before
            os.kill(int(worker), signal.SIGKILL)
            while Path(f"/proc/{worker}/stat").read_text().split()[2] != "Z":
                time.sleep(0.01)
        assert list(done) == []
    finally:
        asked.end()
    assert children() == before


def test_a_task_that_fails_is_tried_again(begun: Begun, monkeypatch: pytest.MonkeyPatch) -> None:
    """Twice, by whichever worker is free."""
    tries = begun.folder.path.parent / "tries"
    tries.mkdir()

    def failing_twice(_job: object, task: range, scratch: Path, _kept: object) -> object:
        folder = tries / str(task.start)
        folder.mkdir(exist_ok=True)
        if claimed(folder, 2) is not None:
            raise GroupsFailed(Counter(), {task.start: "not yet"})
        return answer_groups(begun.job, task, scratch)

    monkeypatch.setattr(workers, "answer_groups", failing_twice)
    outcome = answer_here(2, begun.job, begun.grouped)
    assert not outcome.failed and outcome.counts.total() == begun.grouped.records
    assert sorted(map(int, os.listdir(tries))) == list(begun.groups())


@pytest.mark.parametrize("forks", [0, 1])
def test_no_worker_can_be_started(
    begun: Begun, monkeypatch: pytest.MonkeyPatch, forks: int
) -> None:
    """That is said, unless another one was started before."""
    fork, left = os.fork, forks

    def failing() -> int:
        nonlocal left
        if not left:
            raise OSError(errno.EAGAIN, os.strerror(errno.EAGAIN))
        left -= 1
        return fork()

    monkeypatch.setattr(os, "fork", failing)
    if forks:
        outcome = answer_here(3, begun.job, begun.grouped)
        assert not outcome.failed and outcome.counts.total() == begun.grouped.records
    else:
        said = "^no worker can be started: Resource temporarily unavailable$"
        with pytest.raises(ToolError, match=said):
            answer_here(3, begun.job, begun.grouped)


def test_a_worker_ends_in_the_middle_of_a_task(
    begun: Begun,
    tmp_path: Path,
    monkeypatch: pytest.MonkeyPatch,
    capfd: pytest.CaptureFixture[str],
) -> None:
    """What it has begun is deleted. An error that comes by that, as where it imports something, isn't said."""

    def endless(_job: object, _task: range, scratch: Path, _kept: object) -> None:
        # It has closed the file of pytest.
        sys.stderr = open(2, "w", buffering=1, closefd=False)
        try:
            (scratch / "begun").touch()
            time.sleep(600)
        finally:
            (scratch / "begun").rename(scratch / "ended")
            raise RuntimeError("release unlocked lock")

    def interrupt() -> None:
        while not (tmp_path / "begun").exists():
            time.sleep(0.01)
        os.kill(os.getpid(), signal.SIGINT)

    monkeypatch.setattr(workers, "answer_groups", endless)
    asked = Workers(begun.job, 1, tmp_path)
    # What a shell starts in the background ignores it.
    handler = signal.signal(signal.SIGINT, signal.default_int_handler)
    interrupting = threading.Thread(target=interrupt)
    interrupting.start()
    with pytest.raises(KeyboardInterrupt):
        list(asked.done([range(1)]))
    signal.signal(signal.SIGINT, handler)
    interrupting.join()
    asked.end()
    assert (tmp_path / "ended").exists() and not (tmp_path / "begun").exists()
    assert capfd.readouterr().err == ""


def test_what_is_waited_for(begun: Begun, runs: Runs, monkeypatch: pytest.MonkeyPatch) -> None:
    """Which processes have how many groups."""
    go = runs.folder / "go"

    def waiting(_job: object, task: range, scratch: Path, _kept: object) -> object:
        while not go.exists():
            time.sleep(0.01)
        return answer_groups(begun.job, task, scratch)

    monkeypatch.setattr(workers, "answer_groups", waiting)
    asked = Workers(begun.job, 2, runs.folder)
    said = list[str]()

    def look() -> None:
        while "with 2 workers" not in (found := asked.waited_for(11)):
            time.sleep(0.01)
        said.append(found)
        go.touch()

    looking = threading.Thread(target=look)
    looking.start()
    tasks = [range(0, 4), range(4, 8), range(8, 11)]
    try:
        assert sum(len(task) for task, _ in asked.done(tasks)) == 11
    finally:
        go.touch()
        looking.join()
        asked.end()
    pattern = (
        "11 groups are left, 8 of them with 2 workers: process [0-9]+ has 4, process [0-9]+ has 4"
    )
    assert len(said) == 1 and re.fullmatch(pattern, said[0])


def ended_at(moment: int, sign: int) -> Callable[[], None]:
    """The command, which gets a signal when it uses the system for the n-th time after it has forked its first worker."""

    def command() -> None:
        run, left, began = os.getpid(), moment, False

        def count(event: str, _: object) -> None:
            nonlocal left, began
            began = began or event == "os.fork"
            if began and os.getpid() == run and event in {*USES, "os.fork", "socket.__new__"}:
                left -= 1
                if not left:
                    os.kill(run, sign)

        sys.addaudithook(count)
        main()

    return command


def test_a_run_that_starts_is_ended(runs: Runs) -> None:
    """At five moments, by both signals: one message, no process and no scratch file is left, and the next run goes on."""
    words = runs.words("--workers", 3, *GROUPS, "--resume")[1:]
    errors = runs.folder / "stderr"
    (runs.folder / "out").mkdir()
    for moment in (1, 2, 4, 7, 8):
        sign = (signal.SIGTERM, signal.SIGINT)[moment % 2]
        with Forked(words, runs.environment(), errors, ended_at(moment, sign)) as run:
            assert run.wait(120) == 1, moment
            assert run.stdout.read() == ""
        said = without_progress(errors.read_text()).strip()
        assert said == "olr-tools: interrupted", said
        runs.await_end()
        assert os.listdir(runs.scratch) == []
        assert all(name[0] != "." for name in runs.parts())
    assert_resumes(runs, *GROUPS)


def test_a_signal_when_all_is_done(monkeypatch: pytest.MonkeyPatch) -> None:
    """It ends the process without a word: no exception is raised in what Python does at its end."""
    ending = signal.SIGINT, signal.SIGTERM, signal.SIGHUP
    before = {one: signal.getsignal(one) for one in ending}
    monkeypatch.setattr("olr.tools.run", lambda: 0)
    try:
        with pytest.raises(SystemExit):
            main()
        assert [signal.getsignal(one) for one in ending[:2]] == [signal.SIG_DFL] * 2
    finally:
        for one, handler in before.items():
            signal.signal(one, handler)
