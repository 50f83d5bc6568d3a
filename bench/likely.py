#!/usr/bin/env python3
"""Measures what the likely order, detail, shapes and probabilities cost: instructions of `batch places` over many references, asked in six
ways, and with a confidence in one more. All are asked with `--profile feed`, for which the confidence is that comes with `olr-tools`.

    bench/likely.py --program crates/olr/out/olr --map /tmp/full --input /tmp/full/messages.txt [--confidence FILE]

Ratios are to `batch places --within 14620 --most 100`, which looks as far as the likely order does. Instructions are those that `valgrind
--tool=callgrind` counts, of the whole run, and beyond those of an empty input, which reads the map.
"""

import argparse
import os
import pathlib
import tempfile

from answer import counted
from compare import table

FAR = ["--within", "14620", "--most", "100"]
WAYS = (FAR, [], ["--shape"], ["--detail"], ["--order", "likely"], ["--order", "likely", "--detail"])


def main():
    parser = argparse.ArgumentParser(description=__doc__, formatter_class=argparse.RawDescriptionHelpFormatter)
    parser.add_argument("--program", required=True, metavar="PATH")
    parser.add_argument("--map", required=True, metavar="FOLDER")
    parser.add_argument("--input", required=True, metavar="FILE", help="references, one a line, behind a tab or alone")
    parser.add_argument("--confidence", metavar="FILE")
    chosen = parser.parse_args()
    ways = [*WAYS, ["--order", "likely", "--detail", "--confidence", chosen.confidence]] if chosen.confidence else WAYS
    program = os.path.abspath(chosen.program)
    references = len(pathlib.Path(chosen.input).read_text().splitlines())
    rows = [["places, with", "references", "millions", "ratio", "beyond reading", "ratio", "MB of lines"]]
    first = None
    with tempfile.TemporaryDirectory() as folder:
        output = os.path.join(folder, "lines")
        for way in ways:
            words = ["batch", "places", *way, "--profile", "feed", "--map", chosen.map]
            empty = counted(program, words, os.devnull, os.devnull)
            whole = counted(program, words, chosen.input, output)
            counts = whole, whole - empty
            first = first or counts
            cells = [cell for count, beside in zip(counts, first) for cell in (f"{count / 1e6:.1f}", f"{count / beside:.3f}")]
            rows.append([" ".join(way) or "nothing", str(references), *cells, f"{os.path.getsize(output) / 1e6:.1f}"])
    table(rows)


if __name__ == "__main__":
    main()
