#!/usr/bin/env python3
"""Asks a server again and again while its processes are killed, and compares each answer with that of `olr batch`.

    bench/soak.py --program PATH --map FOLDER --input FILE [--minutes 60] [--clients 16] [--workers N] [--seed 1] [--every 60] [--large FILE]

Clients ask `match`, `places`, `why` and `candidates` about the references of the file. Every so many seconds (--every) one process of the server is
killed, drawn by the seed. Each minute has a row: answers, those with each status, those that differ, requests without a status, the median and the
99th percentile of their times in ms, the processes that were killed, and the memory of the server in MiB, and of all its processes together.

With the reference of a file (--large), as `generate_reference.py --points 24 --lines-per-leg 12` writes one, there are rough clients besides, each kind with an
address of its own: streams, large answers, clients that leave, bodies that come and answers that are taken slowly, and SIGHUP. What they met is the last
column. Streams and large answers have to be the same each time; a stream is cut where its process was killed.

The status is 0 if no answer differs and each request has a status. It needs what ./olr-tools setup installs.
"""

import argparse
import asyncio
import os
import random
import signal
import sys
import time
from collections import Counter
from pathlib import Path

from rough import Rough
from served import Client, children_of, expected_of, kib_of, path_of, records_of, serving

WHATS = ("match", "places", "why", "candidates")
SHARES = (70, 20, 5, 5)


class Minute:
    """What was counted in a minute."""

    def __init__(self):
        self.statuses, self.rough = Counter(), Counter()
        self.times = []
        self.different = self.killed = 0

    def row(self, number, server):
        """It as a row, with the memory of a server."""
        times = sorted(self.times) or [0]
        late = 1000 * times[int(len(times) * 0.99)]
        others = " ".join(f"{status}:{count}" for status, count in sorted(self.statuses.items()) if status)
        figures = [number, sum(self.statuses.values()), others, self.different, self.statuses[0]]
        memory = [f"{kib_of(server, 'VmRSS') / 1024:.1f}", f"{shared_by(server) / 1024:.1f}"]
        rough = ", ".join(f"{count} {name}" for name, count in sorted(self.rough.items()) if count)
        return [*figures, f"{1000 * times[len(times) // 2]:.1f}", f"{late:.1f}", self.killed, *memory, rough]


HEADER = ["minute", "answers", "statuses", "differ", "without", "median ms", "99 percent ms", "killed", "server MiB", "all MiB", "rough"]


def shared_by(process):
    """The memory of a process and all that it has started, in KiB, where what several share counts once."""
    try:
        figures = Path(f"/proc/{process}/smaps_rollup").read_text().partition("\nPss:")[2].split()
    except OSError:
        return 0
    return int(figures[0]) + sum(map(shared_by, children_of(process)))


async def ask(client, draws, expected, minutes, is_over):
    """Asks until it is over."""
    known = {what: list(zip(map(lambda text: path_of(what, text), texts), answers)) for what, (texts, answers) in expected.items()}
    while not is_over.is_set():
        path, answer = draws.choice(known[draws.choices(WHATS, SHARES)[0]])
        begin = time.perf_counter()
        status, body = await client.get(path)
        minute = minutes[-1]
        minute.times.append(time.perf_counter() - begin)
        minute.statuses[status] += 1
        if status == 200:
            minute.different += body != answer
        elif status == 422:
            minute.different += answer is not None
    client.close()


async def kill(server, draws, every, minutes, is_over):
    """Kills a process now and then."""
    while not is_over.is_set():
        await asyncio.sleep(every)
        there = children_of(server.pid)
        if there and not is_over.is_set():
            os.kill(draws.choice(there), signal.SIGKILL)
            minutes[-1].killed += 1


async def soak(server, port, expected, chosen):
    """All minutes, with the memory of the server at the end of each."""
    minutes, is_over = [Minute()], asyncio.Event()
    asking = [asyncio.create_task(ask(Client(port), random.Random(chosen.seed + one), expected, minutes, is_over)) for one in range(chosen.clients)]
    killing = asyncio.create_task(kill(server, random.Random(chosen.seed), chosen.every, minutes, is_over))
    rough = []
    if chosen.large is not None:
        some = Rough(port, lambda: minutes[-1].rough, is_over)
        rough = some.tasks(server, chosen, expected["match"][0], random.Random(chosen.seed))
    print("\t".join(HEADER), flush=True)
    for number in range(1, chosen.minutes + 1):
        await asyncio.sleep(60)
        minute = minutes[-1]
        minutes.append(Minute())
        print("\t".join(map(str, minute.row(number, server.pid))), flush=True)
    is_over.set()
    await asyncio.gather(*asking, *rough)
    killing.cancel()
    return minutes


def main():
    parser = argparse.ArgumentParser(description=__doc__, formatter_class=argparse.RawDescriptionHelpFormatter)
    parser.add_argument("--program", type=Path, required=True)
    parser.add_argument("--map", type=Path, required=True)
    parser.add_argument("--input", type=Path, required=True)
    parser.add_argument("--minutes", type=int, default=60)
    parser.add_argument("--clients", type=int, default=16)
    parser.add_argument("--workers", type=int, default=os.cpu_count())
    parser.add_argument("--seed", type=int, default=1)
    parser.add_argument("--every", type=float, default=60)
    parser.add_argument("--large", type=Path)
    chosen = parser.parse_args()
    texts = records_of(chosen.input)
    expected = {what: (texts, expected_of(chosen.program, chosen.map, what, texts)) for what in WHATS}
    with serving(chosen.program, chosen.map, chosen.workers) as (server, port):
        minutes = asyncio.run(soak(server, port, expected, chosen))
        is_alive = server.poll() is None
        peak = kib_of(server.pid, "VmHWM") / 1024
    rough = sum((minute.rough for minute in minutes), Counter())
    different = sum(minute.different for minute in minutes) + rough["stream differs"] + rough["large differs"]
    without = sum(minute.statuses[0] for minute in minutes)
    answers = sum(sum(minute.statuses.values()) for minute in minutes)
    failed = sum(count for minute in minutes for status, count in minute.statuses.items() if status not in (200, 422))
    killed = sum(minute.killed for minute in minutes)
    print(f"{answers} requests, {killed} processes killed: {different} answers differ, {without} have no status, {failed} another one than 200 and 422")
    print(f"memory of the server: {peak:.0f} MiB at most")
    if rough:
        print(f"rough clients: {', '.join(f'{count} {name}' for name, count in sorted(rough.items()) if count)}")
    sys.exit(0 if is_alive and not different and not without else 1)


if __name__ == "__main__":
    main()
