"""The tasks of a run by a scheduler of Dask, which hands them to workers on other machines, and runs again what failed."""

import logging
import sys
import uuid
from collections import Counter
from collections.abc import Iterator, Mapping, Sequence
from contextlib import contextmanager, suppress
from distributed import CancelledError, Client, Future, as_completed, get_worker, wait
from functools import partial
from pathlib import Path

from olr.errors import ToolError
from olr.progress import progress
from olr.running.answering import Job, answer_groups
from olr.running.grouping import Grouped
from olr.running.tasks import RETRIES, Done, Outcome, Task, outcome_of, tasks_of
from olr.running.waiting import limited_workers, what_is_waited_for

SECONDS_TO_CONNECT = 20
"""To a scheduler, on a machine that does other things."""
LOGGERS = ("distributed", "distributed.client", "asyncio", "tornado.application")
"""By them Dask logs what goes wrong with a scheduler."""


def answer_by(scheduler: str, job: Job, grouped: Grouped) -> Outcome:
    """Answers all groups by the workers of the scheduler at an address. It waits until each is done or has failed for the last time. It is said
    if the memory of the workers has a limit; Dask logs nothing here meanwhile. Raises `ToolError` if there is no scheduler, or it ends.
    """
    with _quiet(), _connected(scheduler) as client:
        with suppress(OSError):
            if (said := limited_workers(client)) is not None:
                print(said, file=sys.stderr, flush=True)
        return answer_all(client, job, grouped)


def _connected(scheduler: str) -> Client:
    """A client of the scheduler at an address. Raises `ToolError`."""
    try:
        return Client(scheduler, timeout=SECONDS_TO_CONNECT)
    except (OSError, ValueError) as error:
        raise ToolError(f"there is no scheduler at {scheduler}: start dask-scheduler") from error


@contextmanager
def _quiet() -> Iterator[None]:
    """Keeps what Dask logs from standard error: of a scheduler that ends it has tracebacks, and a run one message."""
    loggers = [logging.getLogger(name) for name in LOGGERS]
    levels = [logger.level for logger in loggers]
    for logger in loggers:
        logger.setLevel(logging.CRITICAL + 1)
    try:
        yield
    finally:
        for logger, level in zip(loggers, levels):
            logger.setLevel(level)


def answer_all(client: Client, job: Job, grouped: Grouped) -> Outcome:
    """Answers all groups. Raises `ToolError` if the scheduler ends."""
    name = f"olr-{uuid.uuid4().hex}"
    try:
        tasks = tasks_of(grouped, len(client.nthreads()))
        futures = client.map(
            partial(_answer, job),
            tasks,
            key=[f"{name}-{task.start}" for task in tasks],
            retries=RETRIES,
            pure=False,
        )
        _watch(client, dict(zip(futures, map(len, tasks))))
    except (CancelledError, OSError) as error:
        raise ToolError(f"{job.folder}: the scheduler ended: go on by --resume") from error
    return outcome_of(_done(tasks, futures))


def _answer(job: Job, task: Task) -> Counter[str]:
    """What a worker of Dask does, with its files where Dask has them. Raises `GroupsFailed`."""
    return answer_groups(job, task, Path(get_worker().local_directory))


def _done(tasks: Sequence[Task], futures: Sequence[Future]) -> Iterator[Done]:
    """What became of tasks."""
    for task, future in zip(tasks, futures):
        yield task, future.result() if future.status == "finished" else future.exception()


def _watch(client: Client, groups: Mapping[Future, int]) -> None:
    """Waits for tasks, each of so many groups, and shows how many groups are done, or what is waited for. One that failed is done too."""
    waiting = partial(what_is_waited_for, client, groups)
    with progress("groups", sum(groups.values()), waiting=waiting) as advance:
        for future in as_completed(groups):
            advance(groups[future])
    wait(list(groups))
