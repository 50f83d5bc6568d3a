"""What the scripts that the gate runs share: runs of a program that end by themselves, cases side by side, and the count.

A script has a list of cases, each a tuple, and a function that tries one of them: it runs the program by the `Trial` that it is given, and tells it
what was expected of each run. `try_all` does so for all cases, as many at a time as there are processors, and ends the script with the line
`N passed, M failed`. Runs without a flaw are passed, flaws are failed; a case in which nothing was tried has a flaw.
"""

import argparse
import concurrent.futures
import fcntl
import json
import os
import pathlib
import resource
import signal
import subprocess
import sys
import tempfile

HERE = pathlib.Path(__file__).resolve().parent
TOP = HERE.parent
NO_MEMORY = (1, b"", b"olr: NoMemory\n")
# A confidence for the tolerances that stand where none are given.
CONFIDENCE = {
    "apart": 750,
    "map_differs": {"high": 1000, "low": 0, "value": 500},
    "tolerances": {"radius": 100, "bearing": 4, "class": 7, "lowest": 0, "percent": 30, "slack": 300},
    "version": 3,
    "weights": {
        **{"distance": 1 << 20, "direction": 1 << 23, "leg": 1 << 20, "behind": 1 << 16, "turning_back": 1 << 25},
        **{"none": -(1 << 24), "none_points": 1 << 20, "none_lines": 1 << 23, "none_length": 1 << 17},
    },
}
# A run has this many seconds of a processor, and writes at most so many bytes: then it is ended, and that is a flaw. What it waits for a processor that
# others use doesn't count. What waits for ever, and uses none, is ended with the whole script, by whoever runs that (./test).
SECONDS = 60
MOST_OUTPUT = 1 << 24
# The address space of a run that has no other limit, in bytes: a program that goes wrong must not take the machine's memory.
MOST_MEMORY = 1 << 32
# A case ends at so many flaws, and the script at so many of all cases, so that a program that always fails, or never ends, takes minutes at most.
MOST_FLAWS_OF_A_CASE = 3
MOST_FLAWS = 10
# The file descriptor of the notes of a preloaded library is this or the next free one: those of the program's own files stay what they are.
NOTES = 100


class GivenUp(Exception):
    """A flaw after which the rest of a case isn't tried."""


def lower(which, most):
    """Lowers the soft limit on a resource for this process and those that it starts."""
    soft, hard = resource.getrlimit(which)
    limits = [limit for limit in (most, soft, hard) if limit != resource.RLIM_INFINITY]
    resource.setrlimit(which, (min(limits), hard))


def bound(process):
    """Bounds the time of a processor that a process takes: SIGXCPU ends it then."""
    resource.prlimit(process.pid, resource.RLIMIT_CPU, (SECONDS, SECONDS + 5))


def build(folder, source):
    """Compiles a C file of this folder to a library that can be preloaded, and gives its path."""
    library, compiler = f"{folder}/{source}.so", os.environ.get("CC", "cc")
    try:
        subprocess.run([compiler, "-O2", "-shared", "-fPIC", "-o", library, HERE / source], check=True)
    except (OSError, subprocess.CalledProcessError) as error:
        print(f"{source} can't be compiled by {compiler}: {error}")
        end(0, 1)
    return library


def write_town(folder):
    """Copies the files of the small town of examples/ into a folder, and writes a confidence."""
    (pathlib.Path(folder) / "town.confidence").write_text(json.dumps(CONFIDENCE))
    for name in ("nodes", "lines", "bans"):
        (pathlib.Path(folder) / f"town.{name}").write_bytes((TOP / "examples" / f"{name}.csv").read_bytes())


class Trial:
    """The runs of a program in a folder for one case: how many were as wanted, and the flaws of the others."""

    def __init__(self, program, folder):
        self.program, self.folder, self.passed, self.flaws, self.summary = program, pathlib.Path(folder), 0, [], ""
        self.given = os.devnull  # the file that is the standard input of each run

    def run(self, words, limits=(), output=None, **how):
        """The status, output and errors of a run with limits, pairs of a resource and a number. The output is None where the caller gives a
        file for it. The status of a run that couldn't begin is a text. A run without an end is a flaw after which its case isn't tried."""

        def limit():
            for which, number in limits:
                resource.setrlimit(which, (number, number))

        with tempfile.TemporaryFile() as taken, open(self.folder / self.given, "rb") as given:
            how = {"cwd": self.folder, "stdin": given, "stdout": output or taken, "stderr": subprocess.PIPE, **how}
            try:
                with subprocess.Popen([self.program, *words], preexec_fn=limit if limits else None, **how) as process:
                    try:
                        bound(process)
                        _, errors = process.communicate()
                    finally:
                        process.kill()
            except (OSError, subprocess.SubprocessError) as error:
                return f"none ({str(error)[-80:]})", b"", b""
            if process.returncode == -signal.SIGXCPU:
                raise GivenUp(f"no end after {SECONDS} s of a processor: {' '.join(map(str, words))[:200]}")
            taken.seek(0)
            return process.returncode, None if output else taken.read(), errors or b""

    def run_over(self, library, words, **settings):
        """What `run` gives, with a preloaded library that has these settings, and what it noted."""
        with tempfile.TemporaryFile() as notes:
            descriptor = fcntl.fcntl(notes, fcntl.F_DUPFD, NOTES)
            try:
                room = {"LD_PRELOAD": library, "NOTES": str(descriptor), "LANG": "C.UTF-8"}
                room.update({name.upper(): str(number) for name, number in settings.items()})
                found = self.run(words, env=room, pass_fds=[descriptor])
            finally:
                os.close(descriptor)
            notes.seek(0)
            return found, notes.read().decode()

    def expect(self, holds, what, found):
        """Counts a run that gave what was wanted, or else notes the flaw."""
        if holds:
            self.passed += 1
        else:
            self.fail(flaw_of(what, found))

    def need(self, holds, what, found):
        """The same of a run without which the others of the case say nothing."""
        if not holds:
            raise GivenUp(flaw_of(what, found))
        self.passed += 1

    def fail(self, flaw):
        """Notes a flaw."""
        if len(self.flaws) + 1 >= MOST_FLAWS_OF_A_CASE:
            raise GivenUp(flaw)
        self.flaws.append(flaw)


def in_own_folder(trial, function, *arguments):
    """Tries a case in a folder of its own with the small town, for the records that it gives."""
    with tempfile.TemporaryDirectory(dir=trial.folder) as own:
        trial.folder = pathlib.Path(own)
        write_town(own)
        function(trial, *arguments)


def flaw_of(what, found):
    """The flaw of a run, in words."""
    status, output, errors = found
    wrote = "" if output is None else f", {len(output)} bytes of output {shown(output)}"
    return f"{what}: status {status}{wrote}, errors {shown(errors)}"


def shown(some):
    """The beginning of what a program wrote."""
    return repr(some[:160]) + ("..." if len(some) > 160 else "")


def try_one(function, program, folder, case):
    """Tries a case in a process of its own."""
    trial = Trial(program, folder)
    try:
        function(trial, *case)
        if trial.passed == 0 and not trial.flaws:
            trial.fail("nothing was tried")
    except GivenUp as flaw:
        trial.flaws.append(f"{flaw} (the rest of this case isn't tried)")
    return trial


def prepare():
    """Bounds what a process and the programs that it runs may take and write."""
    signal.signal(signal.SIGTERM, signal.SIG_DFL)
    lower(resource.RLIMIT_FSIZE, MOST_OUTPUT)
    lower(resource.RLIMIT_AS, MOST_MEMORY)


def side_by_side(function, programs, folder, cases):
    """The trials of all cases, each on all programs, in the order of the cases."""
    processors = len(os.sched_getaffinity(0))
    with concurrent.futures.ProcessPoolExecutor(processors, initializer=prepare) as pool:
        futures = [pool.submit(try_one, function, program, folder, case) for case in cases for program in programs]
        try:
            yield from (future.result() for future in futures)
        finally:
            for future in futures:
                future.cancel()


def try_all(function, programs, folder, cases):
    """Tries all cases on each program, prints what each one gave, and gives the passed and the failed."""
    passed = failed = 0
    for trial in side_by_side(function, programs, folder, cases):
        passed, failed = passed + trial.passed, failed + len(trial.flaws)
        for flaw in trial.flaws:
            print(f"FAILED {trial.program.name}: {flaw}")
        if trial.summary:
            print(f"{trial.program.name}: {trial.summary}", flush=True)
        if failed >= MOST_FLAWS:
            print("so much failed that the rest isn't tried")
            break
    return passed, failed


def chosen_of(doc, crate, numbers):
    """What the words of a script name: the programs, or else those that the gate built of a crate, its own and the one by Rattle's own compiler where
    it is there; and numbers by their names, or else the given ones."""
    parser = argparse.ArgumentParser(description=doc, formatter_class=argparse.RawDescriptionHelpFormatter)
    built = TOP / "crates" / crate / "out" / crate
    parser.add_argument("--program", nargs="+", type=pathlib.Path, help="the programs to try (default: those that the gate builds)")
    other = built.with_name(f"{crate}.by-rattle")
    for name, number in numbers.items():
        parser.add_argument(f"--{name}", type=int, default=number, help=f"(default: {number})")
    chosen = vars(parser.parse_args())
    programs = chosen.pop("program") or [built, *([other] if other.exists() else [])]
    for program in programs:
        if not os.access(program, os.X_OK) or program.is_dir():
            print(f"there is no program {program}: .ci/run builds the programs that it tries")
            end(0, 1)
    return [program.resolve() for program in programs], chosen


def end(passed, failed):
    """Ends a script with its last line, and status 0 only if something was tried and nothing failed."""
    if passed + failed == 0:
        print("nothing was tried")
        failed = 1
    print(f"{passed} passed, {failed} failed", flush=True)
    sys.exit(1 if failed else 0)


def main(doc, crate, function, make_cases, **numbers):
    """All of a script: `make_cases` writes what the runs need into a folder, and gives the cases. It gets the numbers, as the words of the script
    change them."""
    signal.signal(signal.SIGTERM, lambda *_: sys.exit(1))  # so that the folder is removed
    programs, chosen = chosen_of(doc, crate, numbers)
    with tempfile.TemporaryDirectory() as folder:
        passed, failed = try_all(function, programs, folder, make_cases(folder, **chosen))
    end(passed, failed)
