#!/usr/bin/env python3
"""Times the built program on maps that are chosen to hurt, beside another program or within stated limits.

    attacks/worst.py --program crates/olr/out/olr [--other PATH] [--runs 2] [--kinds wide fan] [--limit 5]

makes full-size maps by bench/generate_worst.py, each with a reference on it, runs `candidates`, `match`, `places` and `why` on them, and prints a row of a
Markdown table for each command: the least processor time in user mode, in seconds, and the greatest peak memory, in KiB. Runs of two
programs take turns, so that a busy machine slows both. The maps are the same in every run with the same seed.

Every run has to end with status 0. With --other both programs have to write the same bytes, and the program may take up to --limit times the other's time
and memory, and beside that the memory of the largest file of the map, which it holds while it reads it. A time below 0.1 s counts as 0.1 s there, because
it is mostly noise. Without --other each row may take --most-seconds and
--most-mib. In both cases a run is killed after 120 seconds of wall time, and its row isn't run again.

Linux counts what a process held before its program began, which is as much as this script holds. A peak that isn't above that can't be
measured: it is shown as "-", and counts as that much where a ratio is compared with the limit.

The status is 0 if all rows are within the limits, 2 where the words are wrong, otherwise 1. Searches of whole maps wait for memory, so their times
vary by half where other programs use it, also from one run to the next: then take more runs. It needs 1 GB of room for the temporary files, Linux
and nothing else. All rows take some 7 minutes, two runs of two programs each.
"""

import argparse
import pathlib
import subprocess
import sys
import tempfile
from typing import NamedTuple

TOP = pathlib.Path(__file__).resolve().parent.parent
BENCH = TOP / "bench"
sys.path.insert(0, str(BENCH))

import compare  # noqa: E402

KILLED_AFTER = 120  # seconds of wall time
NOISE = 100.0  # milliseconds
KIBIBYTES = 1024  # in a mebibyte
OTHER, OWN = "other", "`olr`"

FAR = ("--percent", "100", "--slack", "10000")  # routes may have any length up to the greatest
WORDS = {
    "spot": (),
    "latitude": (),
    "ids": (),
    "star": ("--radius", "2"),
    "wide": ("--radius", "1000", *FAR),
    "fan": ("--radius", "1000", *FAR),
    "shut": ("--radius", "1000", *FAR, "--lowest", "7"),
    "ring": ("--radius", "1", *FAR),
    "grid": ("--radius", "5", "--bearing", "0"),
    "turns": ("--radius", "1000", *FAR),
    "junction": ("--radius", "1000", *FAR),
    "blank": (),
}


OWN_BANS = ("turns", "shut")  # the kinds that have bans of their own


class Map(NamedTuple):
    """A map: its kind, how many points its reference has and each line's shape has, and how many bans on turns it has."""

    kind: str
    points: int = 32
    shape: int = 0
    bans: int = 0

    def __str__(self):
        shape = f" --shape {self.shape}" if self.shape else ""
        points = f", {self.points} points" if self.points != 32 else ""
        return f"`{self.kind}{shape}`{points}"

    def make(self, folder, seed):
        """Writes the files of the map."""
        chosen = {"--kind": self.kind, "--out": folder, "--seed": seed, "--points": self.points, "--shape": self.shape}
        self.run("generate_worst.py", chosen)
        if self.bans and self.kind not in OWN_BANS:
            self.run("generate_bans.py", {"--map": folder, "--seed": seed, "--bans": self.bans})

    def run(self, script, options):
        """Runs a script of bench/ in a process of its own, so that this one stays small."""
        words = [str(word) for pair in options.items() for word in pair]
        subprocess.run([sys.executable, BENCH / script, *words], check=True)


class Command(NamedTuple):
    """What is run on a map: a subcommand, whether its output is JSON, whether the bans are read, and further words."""

    name: str
    json: bool = False
    bans: bool = False
    further: tuple = ()

    def text(self, bans):
        """The command as the table has it, on a map of so many bans."""
        words = " ".join((self.name, *self.further))
        return f"`{words}`" + (", JSON" if self.json else "") + (f", {bans:,} bans" if self.bans else "")

    def words(self, kind, folder):
        """The words of the command line, for a map of this kind in a folder."""
        words = [self.name, (folder / "reference.txt").read_text().strip()]
        words += ["--nodes", str(folder / "nodes.csv"), "--lines", str(folder / "lines.csv"), *WORDS[kind], *self.further]
        words += ["--bans", str(folder / "bans.csv")] if self.bans else []
        return words + (["--format", "json"] if self.json else [])


LIST, MATCH, JSON, PLACES = Command("candidates"), Command("match"), Command("match", json=True), Command("places")
WHY = Command("why")
CROWDED = WHY._replace(further=("--radius", "1000"))  # a point has more than 64 candidates
MATCH_BANS, JSON_BANS, WHY_BANS = MATCH._replace(bans=True), JSON._replace(bans=True), WHY._replace(bans=True)
LONG_PAGE, PAGE_OF_ONE, ALL_PAGES, LOOK_AT_TWO = ("--page", "1000"), ("--page", "1"), ("--all",), ("--look", "2")

ROWS = [
    (Map("spot"), [LIST, WHY]),
    (Map("spot", points=8, shape=16), [LIST]),
    (Map("latitude", bans=20_000), [LIST, MATCH, JSON_BANS, CROWDED]),
    (Map("latitude", points=8, shape=16), [LIST]),
    (Map("ids", bans=20_000), [LIST, MATCH, JSON_BANS, CROWDED]),
    (Map("star", points=3, bans=20_000), [LIST, MATCH, JSON_BANS, WHY]),
    (Map("star"), [MATCH]),
    (Map("wide", points=3), [MATCH, MATCH._replace(further=LONG_PAGE), PLACES]),
    (Map("wide"), [MATCH]),
    (Map("fan", points=3), [MATCH, JSON, PLACES]),
    (Map("shut", points=3, bans=2), [WHY_BANS]),
    (Map("ring"), [MATCH._replace(further=PAGE_OF_ONE), JSON._replace(further=PAGE_OF_ONE), PLACES._replace(further=LOOK_AT_TWO)]),
    (Map("grid", bans=20_000), [MATCH, JSON_BANS._replace(further=ALL_PAGES)]),
    (Map("turns", points=3, bans=199_362), [MATCH_BANS, JSON_BANS._replace(further=("--page", "100")), WHY_BANS]),
    (Map("turns", bans=199_362), [MATCH_BANS]),
    (Map("junction", points=3), [MATCH, JSON]),
    (Map("blank"), [LIST, MATCH]),
]


class Figures(NamedTuple):
    """What the runs of a program on a row took: the least time in user mode in milliseconds, and the greatest peak in KiB."""

    user: float
    peak: int


def figures_of(runs):
    return Figures(min(run.user for run in runs), max(run.peak for run in runs))


class Table:
    """The rows, and what is wrong with them."""

    def __init__(self, chosen):
        self.chosen, self.rows, self.flaws = chosen, 0, []
        paths = {OTHER: chosen.other, OWN: chosen.program}
        self.paths = {name: path for name, path in paths.items() if path}

    def begin(self):
        """Prints the head of the table."""
        per_figure = [f"{name}: {{}}" for name in self.paths] + ["ratio"] * (len(self.paths) - 1)
        head = [column.format(unit) for unit in ("s", "KiB") for column in per_figure]
        self.line(["kind", "command", *head])
        self.line(["---"] * (2 + len(head)))

    def line(self, cells):
        print("|", " | ".join(cells), "|", flush=True)

    def run_row(self, kind, command, folder, words):
        """Runs a row, prints it and keeps its flaws."""
        programs = [compare.Program(name, path, words) for name, path in self.paths.items()]
        with tempfile.TemporaryDirectory(dir=folder) as room:
            runs, complaints = self.runs_of(programs, compare.Files(room))
        floor = compare.own_peak()
        found = [figures_of(own) for own in runs]
        times, peaks = [one.user for one in found], [one.peak for one in found]
        cells = [f"{time / 1000:.2f}" for time in times] + [f"{time / max(times[0], 1.0):.1f}" for time in times[1:]]
        cells += [f"{peak:,}" if peak > floor else "-" for peak in peaks]
        cells += [f"{peak / peaks[0]:.2f}" if min(peaks) > floor else "-" for peak in peaks[1:]]
        self.line([kind, command, *cells])
        self.rows += 1
        file = max(path.stat().st_size for path in folder.glob("*.csv")) / 1024
        flaws = [*complaints, *self.flaws_of_runs(runs), *self.flaws_of_figures(found, floor, file)]
        self.flaws += [f"{kind}, {command}: {flaw}" for flaw in flaws]

    def runs_of(self, programs, files):
        """The runs of each program by turns, until all are made or one had to be killed; and what they complained of."""
        runs, complaints = [[] for _ in programs], []
        for _ in range(self.chosen.runs):
            for own, program in zip(runs, programs):
                own.append(compare.run(program, files, KILLED_AFTER))
                complaint = compare.first_complaint(files)
                if complaint and complaint not in complaints:
                    complaints.append(complaint)
            if any(own[-1].status < 0 for own in runs):
                break
        return runs, complaints

    def flaws_of_runs(self, runs):
        """What is wrong with statuses and outputs."""
        statuses = sorted({run.status for own in runs for run in own})
        if statuses != [0]:
            yield f"status {', '.join(map(str, statuses))}"
        if not all(run.equal for own in runs for run in own):
            yield "other output"

    def flaws_of_figures(self, found, floor, file):
        """Which limits are passed, on a map whose largest file has so many KiB."""
        own, limit = found[-1], self.chosen.limit
        if len(found) == 1:
            if own.user > 1000 * self.chosen.most_seconds:
                yield f"more than {self.chosen.most_seconds:g} s"
            if own.peak > KIBIBYTES * self.chosen.most_mib:
                yield f"more than {self.chosen.most_mib} MiB"
            return
        other = found[0]
        if own.user > limit * max(other.user, NOISE):
            yield f"more than {limit:g} times the time"
        if own.peak > limit * max(other.peak, floor) + file:
            yield f"more than {limit:g} times the memory"

    def run_map(self, map_, commands, folder, seed):
        """Makes a map and runs its rows."""
        folder.mkdir(parents=True, exist_ok=True)
        map_.make(folder, seed)
        for command in commands:
            self.run_row(str(map_), command.text(map_.bans), folder, command.words(map_.kind, folder))


def arguments():
    parser = argparse.ArgumentParser(description=__doc__, formatter_class=argparse.RawDescriptionHelpFormatter)
    parser.add_argument("--program", required=True, type=pathlib.Path, help="the program")
    parser.add_argument("--other", type=pathlib.Path, help="another one of the same command line, to compare with")
    parser.add_argument("--runs", type=int, default=2, help="runs of each program on each row (default 2)")
    parser.add_argument("--kinds", nargs="+", choices=WORDS, default=list(WORDS), help="the kinds of maps (default all)")
    parser.add_argument("--limit", type=float, default=5, help="most ratio of time and of memory to the other's (default 5)")
    parser.add_argument("--most-seconds", type=float, default=20, help="most time in user mode without --other (default 20)")
    parser.add_argument("--most-mib", type=int, default=1024, help="most memory without --other (default 1024)")
    parser.add_argument("--seed", type=int, default=1, help="another seed gives other maps (default 1)")
    parser.add_argument("--folder", type=pathlib.Path, help="keeps the maps there, a folder each (default: none is kept)")
    chosen = parser.parse_args()
    for path in filter(None, (chosen.program, chosen.other)):
        if not path.is_file():
            parser.error(f"{path} is no file")
    if chosen.runs < 1:
        parser.error("--runs is 1 or more")
    chosen.program = chosen.program.resolve()
    chosen.other = chosen.other and chosen.other.resolve()
    return chosen


def main():
    chosen = arguments()
    table = Table(chosen)
    table.begin()
    for map_, commands in ROWS:
        if map_.kind not in chosen.kinds:
            continue
        with tempfile.TemporaryDirectory() as temporary:
            name = f"{map_.kind}-{map_.points}-{map_.shape}"
            table.run_map(map_, commands, (chosen.folder or pathlib.Path(temporary)) / name, chosen.seed)
    print(f"\nA peak of up to {compare.own_peak():,} KiB couldn't be measured.")
    for flaw in table.flaws:
        print("wrong:", flaw)
    print(f"{table.rows} rows, {len(table.flaws)} flaws")
    sys.exit(1 if table.flaws else 0)


if __name__ == "__main__":
    main()
