"""Neighbouring groups of a run that one worker answers together, and what became of all of them."""

from collections import Counter
from collections.abc import Iterable, Mapping
from typing import NamedTuple

from olr.running.answering import GroupsFailed, reason_of
from olr.running.grouping import Grouped

RETRIES = 2
"""So often a task is tried again that failed."""
RECORDS_OF_TASK, TASKS_OF_WORKER = 1000, 8
"""A task has several groups where they have so many records at most together, and each worker has so many tasks at least."""
Task = range
"""The numbers of its groups."""
Done = tuple[Task, Counter[str] | BaseException]
"""A task that isn't tried again: how many of its lines have an answer, and how many have each fault, or why it failed."""


class Outcome(NamedTuple):
    """How a run ended."""

    counts: Counter[str]
    """Lines by their fault, and those with an answer."""
    failed: Mapping[int, str]
    """Groups that failed, with the reason."""


def outcome_of(ended: Iterable[Done]) -> Outcome:
    """What became of all tasks."""
    counts, failed = Counter[str](), dict[int, str]()
    for task, result in ended:
        if isinstance(result, GroupsFailed):
            counts += result.counts
            failed |= result.reasons
        elif isinstance(result, BaseException):
            failed |= dict.fromkeys(task, reason_of(result))
        else:
            counts += result
    return Outcome(counts, dict(sorted(failed.items())))


def tasks_of(grouped: Grouped, workers: int) -> list[Task]:
    """The groups of each task: neighbours with 1,000 records at most, or a larger one alone. Where there are enough groups, each worker has
    8 tasks at least."""
    usual = RECORDS_OF_TASK * grouped.groups // grouped.records
    most = grouped.groups // (TASKS_OF_WORKER * max(workers, 1))
    size = max(1, min(usual, most))
    return [
        range(first, min(first + size, grouped.groups)) for first in range(0, grouped.groups, size)
    ]
