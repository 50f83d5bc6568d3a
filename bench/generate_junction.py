#!/usr/bin/env python3
"""Makes a map on which many lines end at one node and many start there.

    bench/generate_junction.py --into N --out-of M --out FOLDER

writes nodes.csv, lines.csv and reference.txt: a chain of N lines, from each node of which one more line leads to the junction, and M lines
that start there. The later a line into the junction leaves the chain, the shorter is the way over it, so that each length to
the junction that a search finds by the order of the chain is less than all before it. The reference has ten points along
the chain, evenly spread.
"""
import argparse
import pathlib

from reference import Line, line_reference

LEGS = 9


def lines(into, out_of):
    junction, end = into + 2, into + 3
    for step in range(1, into + 1):
        yield step, step, step + 1, 10
    for step in range(1, into + 1):
        yield into + step, step, junction, 20 * (into + 1 - step)
    for number in range(1, out_of + 1):
        yield 2 * into + number, junction, end, 10


def reference(into):
    """The text of a reference of ten points along the chain."""
    chain = [Line(3, 3, 10, [(10 * node, 0), (10 * node + 10, 0)]) for node in range(1, into + 1)]
    each = into // LEGS
    return line_reference([chain[leg * each : (leg + 1) * each] for leg in range(LEGS)])


def main():
    parser = argparse.ArgumentParser(description=__doc__, formatter_class=argparse.RawDescriptionHelpFormatter)
    parser.add_argument("--into", type=int, required=True)
    parser.add_argument("--out-of", type=int, required=True)
    parser.add_argument("--out", type=pathlib.Path, required=True)
    chosen = parser.parse_args()
    chosen.out.mkdir(parents=True, exist_ok=True)
    with open(chosen.out / "nodes.csv", "w", encoding="ascii") as file:
        file.write("id,lon,lat\n")
        file.writelines(f"{node},{10 * node},0\n" for node in range(1, chosen.into + 2))
        file.write(f"{chosen.into + 2},0,1000\n{chosen.into + 3},0,2000\n")
    with open(chosen.out / "lines.csv", "w", encoding="ascii") as file:
        file.write("id,from,to,class,form,length,shape\n")
        file.writelines(f"{line},{start},{end},3,3,{length},\n" for line, start, end, length in lines(chosen.into, chosen.out_of))
    with open(chosen.out / "reference.txt", "w", encoding="ascii") as file:
        file.write(reference(chosen.into) + "\n")


if __name__ == "__main__":
    main()
