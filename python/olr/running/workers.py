"""The workers of a run on this machine: processes that are forked from it, each with one task at a time. One that ends, whenever and
however, is forked again."""

import gc
import os
import signal
import traceback
from collections import Counter, deque
from collections.abc import Iterator, Sequence
from contextlib import suppress
from multiprocessing import Pipe
from multiprocessing.connection import Connection, wait
from pathlib import Path
from socket import gethostname
from typing import NoReturn

from olr.asking.ending import end_with, is_left
from olr.asking.exchange import how_ended
from olr.errors import ToolError, reason_of
from olr.processors import processors
from olr.progress import progress
from olr.running.answering import GroupsFailed, Job, answer_groups
from olr.running.grouping import Grouped
from olr.running.kept import Kept
from olr.running.tasks import RETRIES, Done, Outcome, Task, outcome_of, tasks_of
from olr.signals import ENDING, kept_signals
from olr.temporary import temporary_folder

SECONDS_TO_END = 10.0
"""A worker that hasn't ended by then is killed."""
MOST_NAMED = 8
"""So many workers are named."""


def answer_here(workers: int | None, job: Job, grouped: Grouped) -> Outcome:
    """Answers all groups by processes of this machine. `workers` is how many there are, by default one for each processor; there are no more of
    them than tasks. It waits until each group is done or has failed for the last time. Raises `ToolError` if no worker can be started, and
    `OSError` where scratch files can't be written."""
    most = min(workers or processors(), grouped.groups)
    tasks = tasks_of(grouped, most)
    with temporary_folder("olr-run.") as scratch:
        started = Workers(job, min(most, len(tasks)), scratch)
        try:
            return outcome_of(_shown(started, tasks))
        finally:
            with kept_signals():
                started.end()


def _shown(workers: "Workers", tasks: Sequence[Task]) -> Iterator[Done]:
    """Tasks as they end, while it is shown how many groups are done, or what is waited for."""
    left = sum(map(len, tasks))
    with progress("groups", left, waiting=lambda: workers.waited_for(left)) as advance:
        for task, result in workers.done(tasks):
            left -= len(task)
            advance(len(task))
            yield task, result


class Workers:
    """Some processes, which end by `end`, or with this process. They are forked when there is work for them."""

    def __init__(self, job: Job, most: int, scratch: Path) -> None:
        """So many at most, with files in a scratch folder."""
        self._job, self._most, self._scratch = job, most, scratch
        self._there: list[_Worker] = []

    def end(self) -> None:
        """Ends them, and waits until they have ended."""
        for worker in self._there:
            worker.close()
        for worker in self._there:
            worker.end()

    def done(self, tasks: Sequence[Task]) -> Iterator[Done]:
        """Tasks as they end. One that failed, or whose worker ended, is tried again. Raises `ToolError` if no worker can be forked."""
        left, tries = deque(tasks), Counter[Task]()
        while left or self._asked():
            self._hand_out(left)
            for worker in self._that_said_something():
                task, said = worker.said()
                tries[task] += 1
                if isinstance(said, Exception) and tries[task] <= RETRIES:
                    left.append(task)
                else:
                    yield task, said

    def waited_for(self, left: int) -> str:
        """Which workers have how many of the groups that are left."""
        asked = [(worker.pid, len(task)) for worker in self._asked() if (task := worker.task)]
        names = [f"process {pid} has {number}" for pid, number in asked[:MOST_NAMED]]
        more = [f"{len(asked) - MOST_NAMED} more"] if len(asked) > MOST_NAMED else []
        having = f"{sum(number for _, number in asked)} of them with {len(asked)} workers"
        return f"{left} groups are left, {having}: {', '.join(names + more)}"

    def _asked(self) -> "list[_Worker]":
        """Those that have a task."""
        return [worker for worker in self._there if worker.task is not None]

    def _that_said_something(self) -> "list[_Worker]":
        """Those whose task has ended, or that ended themselves: at least one."""
        asked = {worker.pipe: worker for worker in self._asked()}
        return [asked[pipe] for pipe in wait(asked) if isinstance(pipe, Connection)]

    def _hand_out(self, left: deque[Task]) -> None:
        """Gives tasks to workers that have none. Raises `ToolError`."""
        while left and (worker := self._idle()) is not None:
            try:
                worker.ask(left[0])
                left.popleft()
            except OSError:
                # It has ended.
                self._there.remove(worker)
                worker.close()
                worker.end()

    def _idle(self) -> "_Worker | None":
        """A worker without a task: a new one, if there may be more of them. Raises `ToolError` if there is none at all."""
        for worker in self._there:
            if worker.task is None:
                return worker
        if len(self._there) == self._most:
            return None
        try:
            with kept_signals():
                self._there.append(_Worker(self._job, self._scratch))
        except OSError as error:
            if self._there:
                return None
            raise ToolError(f"no worker can be started: {reason_of(error)}") from error
        return self._there[-1]


class _Worker:
    """A process that answers tasks."""

    task: Task | None = None
    """The one that it has."""

    def __init__(self, job: Job, scratch: Path) -> None:
        """Forks it, with the signals that end a run kept. Raises `OSError`."""
        self.pipe, theirs = Pipe()
        with theirs:
            self.pid = os.fork()
            if not self.pid:
                _work(job, scratch, theirs)
        self._status: int | None = None

    def ask(self, task: Task) -> None:
        """Gives it a task. Raises `OSError` if it has ended."""
        self.pipe.send(task)
        self.task = task

    def said(self) -> tuple[Task, Counter[str] | Exception]:
        """Its task, and what it says of it, or how it ended."""
        assert self.task is not None
        task, self.task = self.task, None
        try:
            said: Counter[str] | GroupsFailed = self.pipe.recv()
            return task, said
        except (EOFError, OSError):
            self.close()
            status = self.end()
            return task, ToolError(f"a worker on {gethostname()} {how_ended(status)}")

    def close(self) -> None:
        """Lets it end: it has nothing to do, or leaves what it does."""
        self.pipe.close()

    def end(self) -> int:
        """Waits for its end, and kills it if that takes too long. Answers its status, which is below 0 for a signal."""
        if self._status is None:
            ended = os.pidfd_open(self.pid)
            try:
                if not wait([ended], SECONDS_TO_END):
                    os.kill(self.pid, signal.SIGKILL)
                self._status = os.waitstatus_to_exitcode(os.waitpid(self.pid, 0)[1])
            finally:
                os.close(ended)
        return self._status


def _work(job: Job, scratch: Path, asked: Connection) -> NoReturn:
    """Answers tasks until nobody asks any more: then it ends, also in the middle of one."""
    kept = Kept()
    try:
        # What the run has is never deleted here: its descriptors are closed.
        gc.freeze()
        os.closerange(3, asked.fileno())
        os.closerange(asked.fileno() + 1, os.sysconf("SC_OPEN_MAX"))
        # A terminal interrupts the run, and the run ends its workers.
        os.setpgid(0, 0)
        for one in ENDING:
            signal.signal(one, signal.SIG_DFL)
        signal.pthread_sigmask(signal.SIG_UNBLOCK, ENDING)
        end_with(asked.fileno())
        while True:
            asked.send(_answered(job, asked.recv(), scratch, kept))
    except (SystemExit, EOFError, OSError):
        pass
    except BaseException:
        # What is ended in the middle of something, such as an import, may raise an error of its own.
        if not is_left(asked.fileno()):
            traceback.print_exc()
    finally:
        with suppress(BaseException):
            kept.end()
        os._exit(0)


def _answered(job: Job, task: Task, scratch: Path, kept: Kept) -> Counter[str] | GroupsFailed:
    """What became of a task."""
    try:
        return answer_groups(job, task, scratch, kept)
    except GroupsFailed as failed:
        return failed
