#!/usr/bin/python3
"""Measures what groups of references take before the program is run: to read them, to find their lines in a store, and to write their map.

    bench/groups.py --store FILE --messages FILE

Prints the mean of some groups of each size, in milliseconds of a processor: for a group, and for a reference of it. It needs what ./olr-tools setup installs.
"""

import argparse
import sys
import tempfile
import time
from pathlib import Path

sys.path.insert(0, str(Path(__file__).resolve().parents[1] / "python"))

from olr.messages.message import Reading  # noqa: E402
from olr.regions.options import Options  # noqa: E402
from olr.regions.plane import Discs  # noqa: E402
from olr.model.reference import read_points  # noqa: E402
from olr.regions.region import discs_of_each  # noqa: E402
from olr.regions.store import Store  # noqa: E402
from olr.running.grouping import digests_of, read_group, write_groups  # noqa: E402
from olr.running.records import read_records, reference_of  # noqa: E402

GROUPS = {1: 200, 20: 100, 200: 20, 4000: 4}
"""How many groups are taken of each size, evenly from all."""


def measure(store, records, folder):
    """The number of lines of a group's map, and the seconds that it takes."""
    start = time.process_time()
    references = [read_points(reference_of(record.data)) for record in records]
    lines = store.lines_meeting(Discs.joined(discs_of_each(references, Options(), store, "match")))
    if not store.sizes_of(lines).within_limits():
        sys.exit("a group is too large for one map")
    store.write_map(lines, folder)
    return len(lines), time.process_time() - start


def main():
    parser = argparse.ArgumentParser(description=__doc__, formatter_class=argparse.RawDescriptionHelpFormatter)
    parser.add_argument("--store", type=Path, required=True)
    parser.add_argument("--messages", type=Path, required=True)
    chosen = parser.parse_args()
    print("| references in a group | groups | lines of its map | a group, ms | a reference, ms |")
    print("|---|---|---|---|---|")
    with tempfile.TemporaryDirectory() as place, Store.open(chosen.store) as store:
        for size, count in GROUPS.items():
            found = write_groups(read_records(chosen.messages, Reading()), Path(place), size)
            numbers = [found.groups * (2 * number + 1) // (2 * count) for number in range(count)]
            digests = digests_of(Path(place), found.sha256)
            groups = [read_group(Path(place), number, digests).records() for number in numbers]
            lines, seconds = zip(*(measure(store, group, Path(place, "map")) for group in groups))
            mean = 1000 * sum(seconds) / count
            print(f"| {size:,} | {count} | {sum(lines) / count:,.0f} | {mean:.2f} | {mean / size:.3f} |", flush=True)


if __name__ == "__main__":
    main()
