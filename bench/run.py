#!/usr/bin/env python3
"""Times `olr-tools run` with several numbers of workers, and beside one `olr batch` where the map is within the limits.

    bench/run.py --store STORE --messages FILE [--workers 1 2 4] [--map FOLDER] [-- OPTIONS]
    bench/run.py --map FOLDER --messages FILE [--workers 1 2 4] [-- OPTIONS]

OPTIONS are those of `olr-tools run`, such as --page 1. With --map the answers of all runs are compared with those of `olr batch match` on
the map of the folder, and else with each other; without --store the runs are on that map too. The row `reading` is what `batch` takes for one record.
Runs don't join their lines, but in one more run, which isn't timed. Memory is the greatest resident size of a process: of a worker, and of an `olr` that it runs.
A worker's own is what isn't a page of a file, such as the store, which the system can take back: the most that was seen, every 0.05 s.
It needs what ./olr-tools setup installs, and the program that the variable OLR_PROGRAM names, else the built one.
"""

import argparse
import hashlib
import os
import pathlib
import subprocess
import sys
import tempfile
import time

from compare import table

TOP = pathlib.Path(__file__).resolve().parents[1]
PROGRAM = os.environ.get("OLR_PROGRAM", TOP / "crates/olr/out/olr")


def children_of(process):
    """All processes below one. Some may have ended meanwhile."""
    below = []
    try:
        for file in pathlib.Path(f"/proc/{process}/task").glob("*/children"):
            below += [int(word) for word in file.read_text().split()]
    except OSError:
        pass
    return below + [one for child in below for one in children_of(child)]


def peak_of(process):
    """What a process is, the most memory that it had, and what it has of its own, in MiB."""
    try:
        words = pathlib.Path(f"/proc/{process}/cmdline").read_bytes().split(b"\0")
        status = pathlib.Path(f"/proc/{process}/status").read_text()
    except OSError:
        return "", 0, 0
    kind = "worker" if b"run" in words else "olr" if b"batch" in words else "other"
    sizes = {line.split()[0]: int(line.split()[1]) / 1024 for line in status.splitlines() if line.endswith(" kB")}
    return kind, sizes.get("VmHWM:", 0), sizes.get("RssAnon:", 0)


def watched(command):
    """Runs a command: its seconds, its seconds of processor time with those of its children, and the peaks of its processes by what they
    are."""
    peaks = {}
    start = time.monotonic()
    process = subprocess.Popen(list(map(str, command)), stdout=subprocess.DEVNULL)
    while True:
        ended, status, used = os.wait4(process.pid, os.WNOHANG)
        if ended:
            break
        for one in [process.pid, *children_of(process.pid)]:
            kind, *found = peak_of(one)
            if one == process.pid and kind == "worker":
                continue
            for what, size in zip((kind, f"own of {kind}"), found):
                peaks[what] = max(peaks.get(what, 0), size)
        time.sleep(0.05)
    if status:
        sys.exit(f"{command[0]} ended with status {status}")
    return time.monotonic() - start, used.ru_utime + used.ru_stime, peaks


def digest(file):
    """What a file has in it."""
    with open(file, "rb") as stream:
        return hashlib.sha256(stream.read()).hexdigest()


def main():
    parser = argparse.ArgumentParser(description=__doc__, formatter_class=argparse.RawDescriptionHelpFormatter)
    parser.add_argument("--store")
    parser.add_argument("--messages", required=True)
    parser.add_argument("--workers", type=int, nargs="+", default=[1, 2, 4])
    parser.add_argument("--map")
    split = sys.argv.index("--") if "--" in sys.argv else len(sys.argv)
    chosen, words = parser.parse_args(sys.argv[1:split]), sys.argv[split + 1 :]
    with open(chosen.messages, "rb") as file:
        count = sum(1 for _ in file)
    rows = [["run", "wall s", "processor s", "references a second", "ms of processor each", "worker MiB", "its own", "olr MiB"]]
    digests = set()
    with tempfile.TemporaryDirectory() as folder:
        joined = pathlib.Path(folder, "joined")
        commands = {}
        if chosen.map:
            shell = 'exec "$0" batch match --map "$1" "${@:4}" <"$2" >"$3"'
            commands["batch"] = ["bash", "-c", shell, PROGRAM, chosen.map, chosen.messages, joined, *words]
            one = pathlib.Path(folder, "one")
            with open(chosen.messages, "rb") as file:
                one.write_bytes(file.readline())
            commands["reading"] = ["bash", "-c", shell, PROGRAM, chosen.map, one, os.devnull, *words]
        for workers in chosen.workers:
            where = ["--store", chosen.store] if chosen.store else ["--map", chosen.map]
            run = [TOP / "olr-tools", "run", chosen.messages, *where, "--workers", workers, "--profile", "program"]
            commands[f"workers {workers}"] = [*run, "--out", f"{folder}/{workers}", *words]
        for name, command in commands.items():
            wall, processor, peaks = watched(command)
            if name.startswith("workers"):
                watched([*command, "--resume", "--join", joined])
            if name != "reading":
                digests.add(digest(joined))
                joined.unlink()
            print(f"{name}: {wall:.1f} s", file=sys.stderr)
            peak = [f"{peaks.get(kind, 0):.0f}" for kind in ("worker", "own of worker", "olr")]
            rows.append([name, f"{wall:.1f}", f"{processor:.1f}", f"{count / wall:.0f}", f"{1000 * processor / count:.2f}", *peak])
    table(rows)
    print(f"{count} records; outputs are {'equal bytes' if len(digests) == 1 else 'NOT EQUAL'}")
    sys.exit(len(digests) != 1)


if __name__ == "__main__":
    main()
