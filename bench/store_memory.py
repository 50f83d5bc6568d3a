#!/usr/bin/env python3
"""Measures what making a store takes, by the number of lines of its map.

    bench/store_memory.py --map FOLDER [FOLDER ...] [--out FILE]

Runs ./olr-tools regions on each map, such as those of `generate_copies.py`. Prints the most anonymous memory that it had (RssAnon of Linux, looked at
each hundredth of a second), what that is for a line beyond 250 MB, and its processor time. Anonymous memory is what the machine has to have: the resident
memory has pages of files besides, of the spool of records above all, and the system takes these back where they are wanted for something else. The store
is taken away again, unless --out says where the last one stays.
"""

import argparse
import os
import re
import subprocess
import sys
import tempfile
import time
from pathlib import Path

TOOLS = Path(__file__).resolve().parents[1] / "olr-tools"
FIXED = 250e6
"""Bytes, with a map of any size."""
PAUSE = 0.01
"""Seconds between two looks."""


def anonymous_bytes(process):
    """The anonymous memory of a process now; 0 when it has ended."""
    try:
        found = re.search(r"RssAnon:\s+(\d+) kB", Path(f"/proc/{process}/status").read_text())
    except OSError:
        found = None
    return 1024 * int(found[1]) if found else 0


def make(map_folder, store):
    """Makes a store, and answers the greatest number of bytes and the seconds of a processor that it took."""
    process = subprocess.Popen([TOOLS, "regions", map_folder, "--out", store, "--force"], stdout=subprocess.DEVNULL)
    most, status = 0, None
    while status is None:
        most = max(most, anonymous_bytes(process.pid))
        time.sleep(PAUSE)
        ended, code, used = os.wait4(process.pid, os.WNOHANG)
        status = code if ended else None
    if status:
        sys.exit(f"no store was made of {map_folder}")
    return most, used.ru_utime + used.ru_stime


def lines_of(map_folder):
    """How many lines a map has."""
    with open(map_folder / "lines.csv", "rb") as stream:
        return sum(piece.count(b"\n") for piece in iter(lambda: stream.read(1 << 20), b"")) - 1


def main():
    parser = argparse.ArgumentParser(description=__doc__, formatter_class=argparse.RawDescriptionHelpFormatter)
    parser.add_argument("--map", type=Path, required=True, nargs="+")
    parser.add_argument("--out", type=Path)
    chosen = parser.parse_args()
    print("| lines | memory, MB | bytes a line beyond 250 MB | processor, s |")
    print("|---|---|---|---|")
    with tempfile.TemporaryDirectory() as place:
        for folder in chosen.map:
            lines = lines_of(folder)
            most, seconds = make(folder, chosen.out or Path(place, "store.gpkg"))
            print(f"| {lines:,} | {most / 1e6:.0f} | {(most - FIXED) / lines:.0f} | {seconds:.1f} |", flush=True)


if __name__ == "__main__":
    main()
