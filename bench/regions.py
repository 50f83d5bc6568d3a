#!/usr/bin/env python3
"""Compares the answers to references on their regions with those on the whole map, and tells how large regions are.

    bench/regions.py --program PATH --map FOLDER --input FILE [--what candidates match places why] [--tolerances WORDS]

It makes a store of the map, in a temporary folder, writes the region of each reference as a map, and asks `olr batch` about that reference alone there. The
whole map is asked once about all. Status 1 where a byte differs, the number of the record aside. It needs what ./olr-tools setup installs.
"""

import argparse
import json
import subprocess
import sys
import tempfile
import time
from pathlib import Path

sys.path.insert(0, str(Path(__file__).resolve().parents[1] / "python"))

from olr.regions.making import make_store_of_folder  # noqa: E402
from olr.regions.options import Options  # noqa: E402
from olr.model.reference import read_reference  # noqa: E402
from olr.regions.region import discs_of  # noqa: E402
from olr.regions.store import Store  # noqa: E402

WHATS = ("candidates", "match", "places", "why")


def answers(chosen, what, folder, lines):
    """What `batch` prints about lines of an input on a map."""
    command = [chosen.program, "batch", what, "--map", folder, *chosen.words]
    ended = subprocess.run(command, input=b"".join(line + b"\n" for line in lines), capture_output=True, check=True)
    return ended.stdout.splitlines()


def middle(numbers):
    """Their median and the greatest."""
    ordered = sorted(numbers)
    return f"median {ordered[len(ordered) // 2]:,}, greatest {ordered[-1]:,}"


def compare(chosen, what, store, scratch):
    """Prints how the answers to one question compare. Answers how many differ."""
    lines = chosen.input.read_bytes().splitlines()
    pairs = zip(chosen.words[::2], chosen.words[1::2])
    options = Options.of({name.removeprefix("--"): int(value) for name, value in pairs})
    wanted = answers(chosen, what, chosen.map, lines)
    different, matched, beyond, sizes, finding = 0, 0, 0, [], 0.0
    for number, (line, whole) in enumerate(zip(lines, wanted, strict=True), 1):
        reference = read_reference(line.split(b"\t")[-1].decode())
        start = time.perf_counter()
        region = store.lines_meeting([] if reference is None else discs_of(reference, options, store, what))
        finding += time.perf_counter() - start
        sizes.append(len(region))
        if not store.sizes_of(region).within_limits():
            beyond += 1
            continue
        store.write_map(region, scratch)
        (found,) = answers(chosen, what, scratch, [line])
        if found.replace(b'"record":1}', b'"record":%d}' % number) != whole:
            different += 1
            print(f"{what} differs: {line.decode()}")
        answer = json.loads(whole)["answer"] or {}
        matched += bool(answer.get("matchings") or answer.get("places"))
    print(
        f"{what}: {len(lines)} references, {different} differ, {beyond} regions too large, {matched} with a matching;"
        f" lines of a region: {middle(sizes)}; {1000 * finding / len(lines):.1f} ms to find one",
        flush=True,
    )
    return different


def main():
    parser = argparse.ArgumentParser(description=__doc__, formatter_class=argparse.RawDescriptionHelpFormatter)
    parser.add_argument("--program", type=Path, required=True)
    parser.add_argument("--map", type=Path, required=True)
    parser.add_argument("--input", type=Path, required=True)
    parser.add_argument("--what", nargs="+", choices=WHATS, default=WHATS)
    parser.add_argument("--tolerances", default="", metavar="WORDS", help='as "--radius 50 --percent 10"')
    chosen = parser.parse_args()
    chosen.words = chosen.tolerances.split()
    with tempfile.TemporaryDirectory() as place:
        file = Path(place, "store.gpkg")
        start = time.perf_counter()
        sizes = make_store_of_folder(chosen.map, file)
        seconds = time.perf_counter() - start
        with Store.open(file) as store:
            known = store.shortness
            print(f"{sizes.lines:,} lines, {sizes.bans:,} bans: a store in {seconds:.1f} s, {file.stat().st_size / 1e6:.0f} MB")
            print(f"stretch: usual {known.usual}, greatest {known.greatest:.3f}, {len(known.lines):,} lines beyond the usual one")
            different = sum(compare(chosen, what, store, Path(place, "map")) for what in chosen.what)
    sys.exit(1 if different else 0)


if __name__ == "__main__":
    main()
