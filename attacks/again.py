#!/usr/bin/env python3
"""Refuses each allocation of a run of `olr_tools again` in turn. The call that meets the refusal is made once more
with the same values, and has to give what it gives when memory suffices.

    attacks/again.py [--program PATH..]

The program prints the matchings of a reference on a small map, page by page, key by key, and with the lengths of their
legs; it names the call that it makes once more on the standard error. Each run has to print the same, or it ends with
status 1 after a beginning of the output, where the refusal meets what isn't made again: the words, the map, the layers,
the finders, the list of keys and the writing of a line. Each call has to be made again in some run. It needs `cc`,
Linux and glibc.
"""

import collections
import pathlib

from trials import build, main

FILES = {
    "nodes.csv": "id,lon,lat\n1,0,0\n2,0,5\n3,500,0\n4,1000,0\n5,1000,-5\n",
    "lines.csv": "id,from,to,class,form,length,shape\n11,1,3,3,3,557,\n12,2,3,3,3,557,\n13,3,4,3,3,557,\n14,3,5,3,3,557,\n",
}
WORDS = ("again", "nodes.csv", "lines.csv", "CwAAAAAAABtoAQBkAAAbGA==")
CALLS = ("page", "resolve", "routes")  # `next` takes no memory
# No run has as many allocations.
MOST = 100_000


def outcome(found, wanted):
    """What a run is counted as: the call that was made again, `no call`, `status 1` or `wrong`."""
    status, output, errors = found[0], found[1], found[2].decode(errors="replace").strip()
    if status == 0 and output == wanted and errors in CALLS:
        return errors
    if status == 0 and output == wanted and not errors:
        return "no call"
    if status == 1 and wanted.startswith(output):
        return "status 1"
    return "wrong"


def try_calls(trial, library):
    """Refuses each allocation."""
    found, _ = trial.run_over(library, WORDS)
    trial.need(found[0] == 0 and found[1] and not found[2], "with ample memory", found)
    wanted, counts = found[1], collections.Counter()
    for allocation in range(1, MOST):
        found, notes = trial.run_over(library, WORDS, refuse_from=allocation, refuse_to=allocation)
        if not notes:
            break
        name = outcome(found, wanted)
        counts[name] += 1
        trial.expect(name != "wrong", f"allocation {allocation} refused", found)
    for call in CALLS:
        if not counts[call]:
            trial.fail(f"{call} was never made again")
    again = ", ".join(f"{call} in {counts[call]}" for call in CALLS)
    trial.summary = f"{sum(counts.values())} runs, made again: {again}; status 1 in {counts['status 1']}, no call made again in {counts['no call']}"


def make_cases(folder):
    """Writes the map into a folder, and gives the one case."""
    for name, text in FILES.items():
        (pathlib.Path(folder) / name).write_text(text)
    return [(build(folder, "refuse.c"),)]


if __name__ == "__main__":
    main(__doc__, "olr_tools", try_calls, make_cases)
