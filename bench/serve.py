#!/usr/bin/env python3
"""Times `olr-tools serve` beside `olr batch`, in one run.

    bench/serve.py --program PATH --map FOLDER --input FILE [--seconds 10] [--clients 16] [--workers N] [--runs 5] [--large FILE]

1. `GET /match` by some clients, each of which asks when it was answered: answers a second, and how long they take, once all processes run. A
   client is a connection, and all of them are in the process of this script.
2. `POST /batch/match` of the file beside `olr batch` on it, in turns: the best of the runs counts.
3. The most memory of a process of the server beside that of `olr batch`, and that of the server.
4. What the page asks for (`GET /scene`) by one, two and four people, each from an address and with a radius of their own.
5. `GET /match` by one client, while another one varies its options on eight connections.
6. `GET /places` with numbers that were never asked before, and pages behind cursors, each beside the same again.
7. The memory of the server and of all its processes while four clients ask for matchings of the reference in a file (--large), as
   `generate_reference.py --points 24 --lines-per-leg 12` writes one, for 250 as GeoJSON and for a thousand as JSON, and while four send the largest list with the most
   values, and how long `/health` takes meanwhile. What several processes share is divided among them (Pss). The status is 1 if the server itself
   had more than 300 MiB.

It needs what ./olr-tools setup installs.
"""

import argparse
import asyncio
import http.client
import json
import os
import random
import statistics
import subprocess
import sys
import tempfile
import time
from concurrent.futures import ThreadPoolExecutor
from pathlib import Path
from urllib.parse import quote

from served import Client, all_of, children_of, command_of, kib_of, path_of, records_of, serving, shared_kib_of

MOST_OF_SERVER = 300 * 1024  # KiB


async def load(port, paths, clients, seconds):
    """The times of all answers, and how many had another status than 200 and 422."""
    times, others = [], 0
    end = time.perf_counter() + seconds

    async def ask(seed):
        nonlocal others
        client, draws = Client(port), random.Random(seed)
        while (begin := time.perf_counter()) < end:
            status, _ = await client.get(draws.choice(paths))
            times.append(time.perf_counter() - begin)
            others += status not in (200, 422)
        client.close()

    await asyncio.gather(*(ask(seed) for seed in range(clients)))
    return sorted(times), others


async def scenes(port, texts, people, seconds):
    """The times of the pictures of some people, each of whom asks when the last one is there."""
    times, end = [], time.perf_counter() + seconds

    async def ask(number):
        client, draws = Client(port, f"127.0.0.{number + 1}"), random.Random(number)
        while (begin := time.perf_counter()) < end:
            status, _ = await client.get(f"{path_of('scene', draws.choice(texts))}&radius={70 + number}")
            assert status == 200
            times.append(time.perf_counter() - begin)
        client.close()

    await asyncio.gather(*(ask(number) for number in range(people)))
    return sorted(times)


async def beside_varied(port, texts, seconds):
    """The times of answers to one client while another one asks with ever other numbers."""
    times, end = [], time.perf_counter() + seconds

    async def vary(number):
        client, draws = Client(port, "127.0.0.2"), random.Random(number)
        while time.perf_counter() < end:
            await client.get(f"{path_of('match', draws.choice(texts))}&page={draws.randint(1, 1000)}")
        client.close()

    async def ask():
        client, draws = Client(port), random.Random(8)
        while (begin := time.perf_counter()) < end:
            await client.get(path_of("match", draws.choice(texts)))
            times.append(time.perf_counter() - begin)
            await asyncio.sleep(0.005)
        client.close()

    await asyncio.gather(ask(), *(vary(number) for number in range(8)))
    return sorted(times)


async def beside_again(port, texts):
    """The times of answers that nobody has asked for before, and of the same again: with other numbers, and of pages behind cursors."""
    client, times = Client(port), {"numbers": [], "cursors": []}

    async def asked_twice(name, path):
        for _ in range(2):
            begin = time.perf_counter()
            status, body = await client.get(path)
            assert status in (200, 422)
            times[name].append(time.perf_counter() - begin)
        return body

    for number, text in enumerate(texts[:300]):
        await asked_twice("numbers", f"{path_of('places', text)}&radius={40 + number}&look={500 + number}")
        path = f"{path_of('match', text)}&page=1"
        after = json.loads((await client.get(path))[1]).get("next")
        if after is not None:
            await asked_twice("cursors", f"{path}&after={quote(after, safe='')}")
    client.close()
    return times


def asked(port, path, method="GET", body=None, **headers):
    """The bytes of an answer."""
    size, connection = 0, http.client.HTTPConnection("127.0.0.1", port)
    named = {name.replace("_", "-"): value for name, value in headers.items()}
    connection.request(method, path, body, named)
    response = connection.getresponse()
    while piece := response.read(1 << 16):
        size += len(piece)
    connection.close()
    return size


class Peaks:
    """The most memory that a server and its processes have, by looks at them."""

    def __init__(self, server):
        self._server = server
        self.all = self.one = 0

    def look(self):
        """Looks once."""
        found = {one: shared_kib_of(one) for one in all_of(self._server.pid)}
        self.all = max(self.all, sum(found.values()))
        makers = [one for one in found if b"olr.serving.maker" in command_of(one)]
        self.one = max([self.one, *(found[one] for one in makers)])

    def own(self):
        """The most that the server itself had."""
        return kib_of(self._server.pid, "VmHWM")

    def text(self):
        """What was seen, in MiB."""
        return f"the server {self.own() / 1024:.0f} MiB, a maker {self.one / 1024:.0f}, all processes {self.all / 1024:.0f}"


def large(server, port, text):
    """Prints what large answers cost."""
    peaks = Peaks(server)
    asking = f"{path_of('match', text)}&radius=400&percent=100&slack=10000"
    path, drawn = f"{asking}&page=1000", f"{asking}&page=250"
    at_once(port, peaks, "GeoJSON", lambda: asked(port, drawn, Accept="application/geo+json"))
    at_once(port, peaks, "GeoJSON as gzip", lambda: asked(port, drawn, Accept="application/geo+json", Accept_Encoding="gzip"))
    at_once(port, peaks, "JSON", lambda: asked(port, path))
    body = b"[" + b",".join([b"[]"] * (16 * 1024 * 1024 // 3 - 1)) + b"]"
    at_once(port, peaks, "answers to lists", lambda: asked(port, "/messages?format=json", "POST", body))


def at_once(port, peaks, name, ask):
    """Prints what it costs when four clients ask for something."""
    longest, begin = 0.0, time.perf_counter()
    with ThreadPoolExecutor() as threads:
        there = [threads.submit(ask) for _ in range(4)]
        while not all(one.done() for one in there):
            asking = time.perf_counter()
            asked(port, "/health")
            longest = max(longest, time.perf_counter() - asking)
            peaks.look()
            time.sleep(0.05)
    sizes = " ".join(f"{one.result() / 1e6:.1f}" for one in there)
    seconds = time.perf_counter() - begin
    print(f"{name} of {sizes} MB at once, {seconds:.0f} s: {peaks.text()}; /health {longest:.2f} s at most")
    if peaks.own() > MOST_OF_SERVER:
        sys.exit(f"the server has more than {MOST_OF_SERVER >> 10} MiB")


def posted(port, file):
    """Seconds of a stream, and the bytes of its answer."""
    begin, size = time.perf_counter(), 0
    connection = http.client.HTTPConnection("127.0.0.1", port)
    with open(file, "rb") as body:
        connection.request("POST", "/batch/match?profile=program", body, {"Content-Type": "text/plain"})
        response = connection.getresponse()
        while piece := response.read(1 << 20):
            size += len(piece)
    connection.close()
    return time.perf_counter() - begin, size


def batched(chosen):
    """Seconds of `olr batch`, the bytes that it writes, and the most memory that it has, in KiB."""
    command = [str(chosen.program), "batch", "match", "--map", str(chosen.map), "--input", str(chosen.input)]
    begin = time.perf_counter()
    with tempfile.TemporaryFile() as out:
        process = subprocess.Popen(command, stdout=out)
        _, status, used = os.wait4(process.pid, 0)
        process.returncode = os.waitstatus_to_exitcode(status)
        return time.perf_counter() - begin, os.fstat(out.fileno()).st_size, used.ru_maxrss


def main():
    parser = argparse.ArgumentParser(description=__doc__, formatter_class=argparse.RawDescriptionHelpFormatter)
    parser.add_argument("--program", type=Path, required=True)
    parser.add_argument("--map", type=Path, required=True)
    parser.add_argument("--input", type=Path, required=True)
    parser.add_argument("--seconds", type=float, default=10)
    parser.add_argument("--clients", type=int, default=16)
    parser.add_argument("--workers", type=int, default=os.cpu_count())
    parser.add_argument("--runs", type=int, default=5)
    parser.add_argument("--large", type=Path)
    chosen = parser.parse_args()
    texts = records_of(chosen.input)
    paths = [path_of("match", text) for text in texts]
    with serving(chosen.program, chosen.map, chosen.workers) as (server, port):
        asyncio.run(load(port, paths, chosen.clients, 2))
        times, others = asyncio.run(load(port, paths, chosen.clients, chosen.seconds))
        rate = len(times) / chosen.seconds
        middle, late = (1000 * times[int(len(times) * share)] for share in (0.5, 0.99))
        print(f"GET /match, {chosen.clients} clients: {rate:.0f} answers a second, median {middle:.1f} ms, 99 percent {late:.1f} ms")
        print(f"answers with another status: {others}")
        peaks = [kib_of(child, "VmHWM") for child in children_of(server.pid)]
        streams, batches = [], []
        for _ in range(chosen.runs):
            batches.append(batched(chosen))
            streams.append(posted(port, chosen.input))
        least, (alone, size, peak) = min(streams), min(batches)
        print(f"POST /batch/match: {least[0]:.2f} s, olr batch: {alone:.2f} s, ratio {least[0] / alone:.2f}")
        print(f"bytes: {least[1]} and {size}")
        print(f"memory of a process: {max(peaks) / 1024:.1f} MiB, of olr batch: {peak / 1024:.1f} MiB, ratio {max(peaks) / peak:.2f}")
        print(f"memory of the server: {kib_of(server.pid, 'VmHWM') / 1024:.1f} MiB")
        asyncio.run(scenes(port, texts, 1, 2))
        for people in (1, 2, 4):
            times = asyncio.run(scenes(port, texts, people, chosen.seconds))
            print(f"GET /scene, {people} people with a radius each: {1000 * sum(times) / len(times):.0f} ms on average")
        times = asyncio.run(beside_varied(port, texts, chosen.seconds))
        middle, late = (1000 * times[int(len(times) * share)] for share in (0.5, 0.99))
        print(f"GET /match beside options that vary: median {middle:.1f} ms, 99 percent {late:.1f} ms")
        for name, times in asyncio.run(beside_again(port, texts)).items():
            first, again = (1000 * statistics.median(times[one::2]) for one in (0, 1))
            print(f"new {name}: median {first:.2f} ms, again {again:.2f} ms, ratio {first / again:.2f}")
        if chosen.large is not None:
            large(server, port, chosen.large.read_text().strip())


if __name__ == "__main__":
    main()
