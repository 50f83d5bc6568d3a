#!/usr/bin/env python3
"""Times `olr.Map` on many references beside `olr batch` on the same file, in turns.

    bench/client.py --program PATH --map FOLDER --input FILE [--runs 3]

`batch` writes its output into a file. The client goes through the pages, first without looking at their matchings, then at each total,
then at each piece. The best of the runs counts. It needs what ./olr-tools setup installs.
"""

import argparse
import os
import subprocess
import sys
import tempfile
import time
from pathlib import Path

sys.path.insert(0, str(Path(__file__).resolve().parents[1] / "python"))

import olr  # noqa: E402


def batch(chosen):
    """Runs the program on the file."""
    command = [chosen.program, "batch", "match", "--map", chosen.map, "--input", chosen.input]
    with tempfile.TemporaryFile() as out:
        subprocess.run(command, stdout=out, check=True)


def client(chosen, look):
    """Goes through the answers of the client, and calls a function on each page."""
    texts = [line.split("\t")[-1] for line in chosen.input.read_text().splitlines()]
    with olr.Map.of_folder(chosen.map, program=chosen.program, profile="program") as asked:
        for page in asked.matches(texts):
            look(page)


def seconds(work):
    """How long a piece of work takes."""
    start = time.perf_counter()
    work()
    return time.perf_counter() - start


def main():
    parser = argparse.ArgumentParser(description=__doc__, formatter_class=argparse.RawDescriptionHelpFormatter)
    parser.add_argument("--program", type=Path, required=True)
    parser.add_argument("--map", type=Path, required=True)
    parser.add_argument("--input", type=Path, required=True)
    parser.add_argument("--runs", type=int, default=3)
    chosen = parser.parse_args()
    os.environ["OLR_PROGRAM"] = str(chosen.program)
    works = {
        "batch": lambda: batch(chosen),
        "client": lambda: client(chosen, lambda page: None),
        "client, totals": lambda: client(chosen, lambda page: [matching.total for matching in page.matchings]),
        "client, pieces": lambda: client(chosen, lambda page: [list(matching.outer) for matching in page.matchings]),
    }
    times = {name: [] for name in works}
    for _ in range(chosen.runs):
        for name, work in works.items():
            times[name].append(seconds(work))
    for name, taken in times.items():
        print(f"{name}: {min(taken):.2f} s, {min(taken) / min(times['batch']):.2f}")


if __name__ == "__main__":
    main()
