#!/usr/bin/env python3
"""Times `Rows::build` and `next_key` on the widest table that there can be: the program olr_tools, beside the same rows in C.

    bench/rows.py [--runs R] [--depth D] [--rounds N]

builds bench/rows.c with `cc -O3` into a temporary folder, runs both by turns, and prints milliseconds of the fastest
run of each, and the ratio. Both have to mark as many totals. Then it prints, of the fastest round of olr_tools,
microseconds a call for the key after the one with 10 keys before it, with D keys before it, and after the last one.
"""

import argparse
import sys
import tempfile

from beside import compare_sums, printed_lines, programs


def compare_building(both, runs):
    """Prints how long the rows take. The exit status."""
    least = dict.fromkeys(both, float("inf"))
    sums = set()
    for _ in range(runs):
        for name, program in both.items():
            found, nanoseconds = printed_lines(program, "rows")
            sums.add(found)
            least[name] = min(least[name], int(nanoseconds) / 1e6)
    for name, milliseconds in least.items():
        print(f"{name:10} {milliseconds:8.1f} ms   ratio {milliseconds / least['plain']:.2f}")
    return compare_sums(sums)


def print_keys(program, depth, rounds):
    """Prints how long the next key takes."""
    lines = [line.split() for line in printed_lines(program, "keys", depth, rounds)]
    for number, name in enumerate(["10 before it", f"{depth} before it", "the last"]):
        mine = lines[number::3]
        probes = int(mine[0][1])
        call = min(int(nanoseconds) for _, _, nanoseconds in mine) / 1e6
        print(f"{name:20} {call:8.2f} us a call   {probes:5} looks a call   {call * 1e3 / probes:6.2f} ns a look   {mine[0][0]}")


def main():
    parser = argparse.ArgumentParser(description=__doc__, formatter_class=argparse.RawDescriptionHelpFormatter)
    parser.add_argument("--runs", type=int, default=11)
    parser.add_argument("--depth", type=int, default=1_000_000)
    parser.add_argument("--rounds", type=int, default=11)
    chosen = parser.parse_args()
    with tempfile.TemporaryDirectory() as folder:
        both = programs("rows", folder, level="-O3")
        status = compare_building(both, chosen.runs)
        print_keys(both["olr_tools"], chosen.depth, chosen.rounds)
    return status


if __name__ == "__main__":
    sys.exit(main())
