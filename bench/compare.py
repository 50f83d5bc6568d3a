#!/usr/bin/env python3
"""Times programs that take the same command line, side by side in one run. Where there are several lists of words, each
program runs with each of them.

The runs are interleaved (first program, second program, first program, ..), so that all share the machine's
noise. Each program runs once before, which doesn't count. Linux alone: the peak memory is what the system
reports for a child when it ends.
"""

import argparse
import os
import resource
import shutil
import signal
import statistics
import sys
import tempfile
import time
from typing import NamedTuple

PIECE = 65_536  # bytes of an output that are compared at once
KIBIBYTES = 1024  # in a mebibyte


class Program(NamedTuple):
    """A program under comparison: the name in the table, the path of its file, its words, whether its output is
    compared, and the number of the words, which tells programs apart whose outputs needn't be equal."""

    name: str
    path: str
    words: list
    compared: bool = True
    asked: int = 0


class Run(NamedTuple):
    """How a run went: exit status (below 0: the signal that ended it), wall time, processor time and that part of it
    in user mode, all in milliseconds, peak memory in KiB, and whether the standard output equals the expected one."""

    status: int
    milliseconds: float
    processor: float
    user: float
    peak: int
    equal: bool


class Files:
    """The temporary files that programs write to, in a folder: what the first run with the same words printed, what
    the last run printed, and its complaints."""

    def __init__(self, folder):
        self.folder = folder
        self.output = os.path.join(folder, "output")
        self.complaints = os.path.join(folder, "complaints")

    def expected(self, program):
        """The file of what the first run with the words of a program printed."""
        return os.path.join(self.folder, f"expected{program.asked}")


def equal_bytes(path, other_path):
    """Whether two files hold the same bytes."""
    with open(path, "rb") as file, open(other_path, "rb") as other:
        while True:
            piece = file.read(PIECE)
            if piece != other.read(PIECE):
                return False
            if not piece:
                return True


def start(program, files):
    """Starts a program on its words, with no input, and answers its process id. The signal SIGPIPE, which Python
    ignores, ends the program as usual."""
    output = files.output if program.compared else os.devnull
    made = os.O_WRONLY | os.O_CREAT | os.O_TRUNC
    actions = [
        (os.POSIX_SPAWN_OPEN, 0, os.devnull, os.O_RDONLY, 0),
        (os.POSIX_SPAWN_OPEN, 1, output, made, 0o600),
        (os.POSIX_SPAWN_OPEN, 2, files.complaints, made, 0o600),
    ]
    line = [program.path, *program.words]
    return os.posix_spawn(program.path, line, os.environ, file_actions=actions, setsigdef=[signal.SIGPIPE])


def run(program, files, most_seconds):
    """Runs a program once. One that takes more than `most_seconds` is killed (status -9)."""
    began = time.perf_counter_ns()
    process = start(program, files)
    signal.signal(signal.SIGALRM, lambda *_: os.kill(process, signal.SIGKILL))
    signal.alarm(most_seconds)
    _, how, usage = os.wait4(process, 0)
    ended = time.perf_counter_ns()
    signal.alarm(0)
    status = -os.WTERMSIG(how) if os.WIFSIGNALED(how) else os.WEXITSTATUS(how)
    if not program.compared:
        equal = True
    elif not os.path.exists(files.expected(program)):
        os.rename(files.output, files.expected(program))
        equal = True
    else:
        equal = equal_bytes(files.expected(program), files.output)
    processor = 1000 * (usage.ru_utime + usage.ru_stime)
    return Run(status, (ended - began) / 1e6, processor, 1000 * usage.ru_utime, usage.ru_maxrss, equal)


def first_complaint(files):
    """The first line that the last run wrote to standard error, or nothing."""
    with open(files.complaints, "rb") as file:
        return file.readline(200).decode("utf-8", "replace").rstrip()


def all_runs(programs, files, count, most_seconds):
    """The warm-up run of each program with its complaint, and its counted runs."""
    warm, counted = [], [[] for _ in programs]
    for program in programs:
        warm.append((run(program, files, most_seconds), first_complaint(files)))
    for _ in range(count):
        for runs, program in zip(counted, programs):
            runs.append(run(program, files, most_seconds))
    return warm, counted


def own_peak():
    """The peak memory of this script, in KiB. A child begins as its copy, so a child's peak is never reported as
    less."""
    return resource.getrusage(resource.RUSAGE_SELF).ru_maxrss


def mebibytes(peak, floor):
    """The text of a peak given in KiB. One not above the floor may be anything up to it."""
    return f"{peak / KIBIBYTES:.1f}" if peak > floor else f"up to {floor / KIBIBYTES:.1f}"


def table(rows):
    """Prints rows of texts in columns, the first to the left and the others to the right."""
    widths = [max(len(row[column]) for row in rows) for column in range(len(rows[0]))]
    for row in rows:
        cells = [row[0].ljust(widths[0])] + [text.rjust(width) for text, width in zip(row[1:], widths[1:])]
        print("  ".join(cells).rstrip())


def figures(programs, counted, floor):
    """Prints the table of all programs, and the ratios of each later one to the first."""
    rows = [["program", "status", "least ms", "median ms", "cpu ms", "peak MiB", "time ratio", "memory ratio"]]
    least = [min(one.milliseconds for one in runs) for runs in counted]
    peaks = [max(one.peak for one in runs) for runs in counted]
    for index, (program, runs) in enumerate(zip(programs, counted)):
        status = ",".join(str(status) for status in sorted({one.status for one in runs}))
        median = statistics.median(one.milliseconds for one in runs)
        processor = min(one.processor for one in runs)
        row = [program.name, status, f"{least[index]:.1f}", f"{median:.1f}", f"{processor:.1f}"]
        row.append(mebibytes(peaks[index], floor))
        if index > 0:
            row.append(f"{least[index] / least[0]:.2f}")
            row.append(f"{peaks[index] / peaks[0]:.2f}" if min(peaks[index], peaks[0]) > floor else "unknown")
        rows.append(row + ["-"] * (len(rows[0]) - len(row)))
    table(rows)


def verdict(programs, warm, counted, files):
    """Prints what programs complained of, and whether all outputs are equal bytes. Answers whether all
    programs had the same output and status in all runs."""
    for program, (_, complaint) in zip(programs, warm):
        if complaint:
            print(f"{program.name} wrote to standard error: {complaint}")
    runs = [[first, *rest] for (first, _), rest in zip(warm, counted)]
    other = [program.name for program, own in zip(programs, runs) if not all(one.equal for one in own)]
    firsts = {program.asked: program for program in reversed(programs) if program.compared}
    sizes = [f"{os.path.getsize(files.expected(firsts[asked]))} bytes" for asked in sorted(firsts)]
    if other:
        names = " and ".join(firsts[asked].name for asked in sorted(firsts))
        print(f"standard outputs: NOT EQUAL to the first run's of {names} ({' and '.join(sizes)}):", *other)
    else:
        print(f"standard outputs: equal bytes in all runs, {' and '.join(sizes)}")
    return not other and len({one.status for own in runs for one in own}) == 1


def word_lists(words):
    """The lists of words between the words `--`."""
    lists = [[]]
    for word in words:
        if word == "--":
            lists.append([])
        else:
            lists[-1].append(word)
    return lists


def programs_of(named, lists):
    """The programs of texts NAME=PATH, each with each list of words. Where there are several lists, a name has the first
    of its words."""
    pairs = [text.split("=", 1) for text in named]
    several = len(lists) > 1
    return [
        Program(f"{name} {' '.join(words[:1])}" if several else name, path, words, asked=asked)
        for asked, words in enumerate(lists)
        for name, path in pairs
    ]


def arguments():
    """The words before `--`, as options, and the lists of words after it, for the programs."""
    parser = argparse.ArgumentParser(
        usage="%(prog)s --program NAME=PATH [--program NAME=PATH ..] [--runs 5] [--map FOLDER [--cat]] -- WORDS.. [-- WORDS.. ..]",
        description="Times programs side by side on the same command line WORDS, or on each of several ones.",
    )
    parser.add_argument("--program", action="append", required=True, metavar="NAME=PATH", help="one to run")
    parser.add_argument("--runs", type=int, default=5, help="counted runs of each program (default 5)")
    parser.add_argument("--map", metavar="FOLDER", help="adds the options --nodes and --lines with its files")
    parser.add_argument("--cat", action="store_true", help="times `cat` of the map's files too, to nowhere")
    parser.add_argument("--most-seconds", type=int, default=600, help="then a run is killed (default 600)")
    split = sys.argv.index("--") if "--" in sys.argv else len(sys.argv)
    options, lists = parser.parse_args(sys.argv[1:split]), word_lists(sys.argv[split + 1 :])
    maps = []
    if options.map:
        maps = [(f"--{kind}", os.path.join(options.map, f"{kind}.csv")) for kind in ("nodes", "lines")]
    lists = [[*words, *(word for pair in maps for word in pair)] for words in lists]
    if not all("=" in text for text in options.program):
        parser.error("--program is NAME=PATH")
    programs = programs_of(options.program, lists)
    for program in programs:
        if not (os.path.isfile(program.path) and os.access(program.path, os.X_OK)):
            parser.error(f"{program.path} is no file that can be run")
    if options.runs < 1 or options.most_seconds < 1:
        parser.error("--runs and --most-seconds are 1 or more")
    if options.cat:
        if not maps:
            parser.error("--cat needs --map")
        programs.append(Program("cat", shutil.which("cat"), [path for _, path in maps], compared=False))
    return options, programs, lists


def main():
    options, programs, lists = arguments()
    for words in lists:
        print("words:", *words)
    print(f"runs: {options.runs} of each, by turns, after one of each that doesn't count", end="\n\n")
    with tempfile.TemporaryDirectory() as folder:
        files = Files(folder)
        warm, counted = all_runs(programs, files, options.runs, options.most_seconds)
        figures(programs, counted, own_peak())
        print()
        same = verdict(programs, warm, counted, files)
    sys.exit(0 if same else 1)


if __name__ == "__main__":
    main()
