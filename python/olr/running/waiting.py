"""What a run waits for: what the scheduler of Dask says of its workers, as a line; and workers whose memory is limited."""

from collections.abc import Mapping, Sequence
from distributed import Client, Future
from typing import Any

SECONDS_TO_ANSWER = 5
"""The scheduler may take them."""
MOST_NAMED = 8
"""So many workers are named."""
WITHOUT_LIMIT = "start dask-worker with --memory-limit 0"


def what_is_waited_for(client: Client, groups: Mapping[Future, int]) -> str:
    """How many groups are left, how many are with which workers, and which workers don't work. `groups` says of each task how many it
    has. It takes some seconds at most, and raises nothing."""
    left = f"{sum(groups[future] for future in groups if not future.done())} groups are left"
    try:
        workers = _asked(client, "identity")["workers"]
        tasks = _asked(client, "processing")
    # Whatever goes wrong with a scheduler that just ends, there is no answer.
    except Exception:
        return f"{left}, and the scheduler doesn't answer"
    if not workers:
        return f"{left}, and the scheduler has no workers: start dask-worker"
    sizes = {future.key: groups[future] for future in groups}
    said = [f"{left}, {_with_workers(tasks, sizes)}"]
    paused = [address for address, worker in workers.items() if worker["status"] == "paused"]
    if paused:
        said.append(
            f"paused by Dask near the limit of their memory: {_names(paused)}: {WITHOUT_LIMIT}"
        )
    return "; ".join(said)


def limited_workers(client: Client) -> str | None:
    """A line on workers that may be paused because their memory has a limit, or None if there are none. Raises `OSError`."""
    workers = _asked(client, "identity")["workers"]
    limited = [address for address, worker in workers.items() if worker["memory_limit"]]
    if not limited:
        return None
    return (
        f"{len(limited)} of {len(workers)} workers have a limit of memory, near which Dask pauses them: {WITHOUT_LIMIT}: "
        f"{_names(limited)}"
    )


def _asked(client: Client, what: str) -> Any:
    """What the scheduler answers. Raises `OSError`, and others where it just ends."""
    return client.sync(getattr(client.scheduler, what), callback_timeout=SECONDS_TO_ANSWER)


def _with_workers(tasks: Mapping[str, Sequence[str]], sizes: Mapping[str, int]) -> str:
    """How many groups the workers have, which are asked or wait there: by the tasks that each has, and the groups of each task."""
    groups = {address: sum(sizes.get(key, 0) for key in keys) for address, keys in tasks.items()}
    busy = {address: number for address, number in groups.items() if number}
    if not busy:
        return "and no worker has one"
    names = _names([f"{address} has {number}" for address, number in busy.items()])
    return f"{sum(busy.values())} of them with {len(busy)} workers: {names}"


def _names(names: list[str]) -> str:
    """Some of many names."""
    more = f" and {len(names) - MOST_NAMED} more" if len(names) > MOST_NAMED else ""
    return ", ".join(names[:MOST_NAMED]) + more
