#!/usr/bin/env python3
"""Times `batch` on many records beside other programs of the same command line, in one run.

    bench/batch.py --program other=PATH --program olr=crates/olr/out/olr --map /tmp/full --input /tmp/full/messages.txt -- match

The words behind `--` are what is asked for of each record, with its options. Each program is also run on an empty input, which takes
the time of reading the map; the difference is the time of the records. All runs are interleaved, as in `compare.py`.

Behind each further `--` stands something else that is asked for of the same records:

    bench/batch.py .. -- match --page 1 -- places

Then the table also has how much more processor time a run takes than one of the same program that asks for the first. The map is read in both.
"""

import argparse
import os
import sys
import tempfile

from compare import Files, all_runs, mebibytes, own_peak, programs_of, table, word_lists


def timed(named, lists, options, name):
    """Each program with each of the lists of words on an input: the programs, the least wall time and the least processor time in ms, the peak in
    KiB, and whether all outputs of the same words are equal, with status 0."""
    lists = [[*words, "--map", options.map, "--input", name] for words in lists]
    programs = [one._replace(words=["batch", *one.words]) for one in programs_of(named, lists)]
    with tempfile.TemporaryDirectory() as folder:
        warm, counted = all_runs(programs, Files(folder), options.runs, options.most_seconds)
    runs = [[first, *rest] for (first, _), rest in zip(warm, counted)]
    least = [min(one.milliseconds for one in own) for own in counted]
    processor = [min(one.processor for one in own) for own in counted]
    peaks = [max(one.peak for one in own) for own in counted]
    return programs, least, processor, peaks, all(one.equal and one.status == 0 for own in runs for one in own)


def main():
    parser = argparse.ArgumentParser(description=__doc__, formatter_class=argparse.RawDescriptionHelpFormatter)
    parser.add_argument("--program", action="append", required=True, metavar="NAME=PATH")
    parser.add_argument("--map", required=True, metavar="FOLDER")
    parser.add_argument("--input", required=True, metavar="FILE")
    parser.add_argument("--runs", type=int, default=3)
    parser.add_argument("--most-seconds", type=int, default=600)
    split = sys.argv.index("--") if "--" in sys.argv else parser.error("what is asked for stands behind --")
    options, lists = parser.parse_args(sys.argv[1:split]), word_lists(sys.argv[split + 1 :])
    with open(options.input, "rb") as file:
        records = sum(1 for _ in file)
    _, empty, _, _, fine = timed(options.program, lists, options, os.devnull)
    programs, whole, processor, peaks, equal = timed(options.program, lists, options, options.input)
    spent = [ended - read for ended, read in zip(whole, empty)]
    rows = [["program", "reading ms", "records ms", "records a second", "peak MiB", "time ratio", "memory ratio"]]
    rows[0] += ["beyond cpu ms", "beyond ratio"] if len(lists) > 1 else []
    count = len(options.program)
    for index, program in enumerate(programs):
        rows.append([program.name, f"{empty[index]:.1f}", f"{spent[index]:.1f}", f"{1000 * records / spent[index]:.0f}"])
        rows[-1].append(mebibytes(peaks[index], own_peak()))
        first = index - index % count  # the first program with the same words
        rows[-1] += [f"{spent[index] / spent[first]:.2f}", f"{peaks[index] / peaks[first]:.2f}"] if index > first else ["-", "-"]
        if index >= count:  # beside the same program with the first words
            beyond, least = (processor[one] - processor[one % count] for one in (index, first))
            rows[-1] += [f"{beyond:.1f}", f"{beyond / least:.2f}" if index > first else "-"]
        rows[-1] += ["-"] * (len(rows[0]) - len(rows[-1]))
    table(rows)
    print(f"{records} records; outputs are {'equal bytes' if equal and fine else 'NOT EQUAL, or a status was not 0'}")
    sys.exit(0 if equal and fine else 1)


if __name__ == "__main__":
    main()
