#!/usr/bin/python3
"""Times `./olr-tools import osm` on the drawn file of generate_osm.py: seconds, seconds of processors, and the peak of memory.

    bench/import_osm.py [--runs N] [options of generate_osm.py but --out]
"""

import argparse
import resource
import subprocess
import tempfile
import time
from pathlib import Path

HERE = Path(__file__).resolve().parent


def main() -> None:
    """Draws a file, imports it a few times, and prints a line for each run."""
    parser = argparse.ArgumentParser(description=__doc__.splitlines()[0])
    parser.add_argument("--runs", type=int, default=3)
    words, options = parser.parse_known_args()
    with tempfile.TemporaryDirectory() as folder:
        file = Path(folder, "town.osm.pbf")
        subprocess.run([str(HERE / "generate_osm.py"), "--out", str(file), *options], check=True)
        print(f"{file.stat().st_size / 1e6:.1f} MB")
        for run in range(words.runs):
            target = str(Path(folder, f"map{run}"))
            command = [str(HERE.parent / "olr-tools"), "import", "osm", str(file), "--out", target]
            before = resource.getrusage(resource.RUSAGE_CHILDREN)
            start = time.monotonic()
            subprocess.run(command, check=True)
            seconds = time.monotonic() - start
            after = resource.getrusage(resource.RUSAGE_CHILDREN)
            used = after.ru_utime + after.ru_stime - before.ru_utime - before.ru_stime
            # ru_maxrss, in kilobytes, is that of the greatest child: the import, unless drawing took more.
            print(
                f"{seconds:.1f} s, {used:.1f} s of processors, {after.ru_maxrss / 1e6:.2f} GB at most",
                flush=True,
            )


if __name__ == "__main__":
    main()
