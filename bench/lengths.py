#!/usr/bin/env python3
"""Times `lengths_from`: the program olr_tools beside the same search written plainly in C.

    bench/lengths.py --map FOLDER [--limits KM ..] [--runs R] [--bans]

builds bench/lengths.c with `cc -O2` into a temporary folder, runs both by turns on the map of the folder, and
prints of the fastest run microseconds a call, lines a second, and the ratio, for each limit. Both search
from 64 places, and have to print the same sums.

With --bans olr_tools also reads `bans.csv` of the folder. The C program knows no bans, so the sums differ then.
"""

import argparse
import pathlib
import sys
import tempfile

from beside import compare_sums, printed_lines, programs

PLACES = 64
DECIMETRES = 10_000  # in a kilometre


def timed(program, folder, limit, bans):
    """The sums that a run prints, and the seconds that its calls took."""
    sums, nanoseconds = printed_lines(program, "lengths", folder / "nodes.csv", folder / "lines.csv", limit, *bans)
    return sums, int(nanoseconds) / 1e9


def measure(both, folder, kilometres, runs, bans):
    """Prints the figures for a limit. The exit status."""
    least = dict.fromkeys(both, float("inf"))
    sums = {}
    for _ in range(runs):
        for name, program in both.items():
            found, seconds = timed(program, folder, round(kilometres * DECIMETRES), bans if name == "olr_tools" else [])
            sums[name] = found
            least[name] = min(least[name], seconds)
    lines = {name: int(found.split()[0]) for name, found in sums.items()}
    print(f"limit {kilometres:g} km, {lines['olr_tools'] / PLACES:.0f} lines a call")
    for name, seconds in least.items():
        call, rate = seconds / PLACES * 1e6, lines[name] / seconds / 1e6
        print(f"  {name:10} {call:8.1f} us a call {rate:8.2f} million lines a second   ratio {seconds / least['plain']:.2f}")
    return 0 if bans else compare_sums(set(sums.values()))


def main():
    parser = argparse.ArgumentParser(description=__doc__, formatter_class=argparse.RawDescriptionHelpFormatter)
    parser.add_argument("--map", type=pathlib.Path, required=True)
    parser.add_argument("--limits", type=float, nargs="+", default=[2, 10, 30])
    parser.add_argument("--runs", type=int, default=5)
    parser.add_argument("--bans", action="store_true")
    chosen = parser.parse_args()
    bans = [chosen.map / "bans.csv"] if chosen.bans else []
    with tempfile.TemporaryDirectory() as folder:
        both = programs("lengths", folder)
        return max([measure(both, chosen.map, limit, chosen.runs, bans) for limit in chosen.limits])


if __name__ == "__main__":
    sys.exit(main())
