"""Plants small changes in the package, one at a time, and sees whether the tests that are named for each fail.

    /usr/bin/python3 tests/mutate.py [--jobs N] [NAME ..]

The changes are in the files of the folder `mutations` beside it, of which a NAME chooses one, or changes of a file of the package whose
path has it. Each is made in a copy of the package, which is deleted then. First the tests run on a copy without a change, where all have
to pass. A change that no test sees is a survivor: the status is 1 if one has no reason in the list, if one that has a reason is seen, or
if a text isn't there any more.
"""

import argparse
import os
import shutil
import signal
import subprocess
import sys
import tempfile
import tomllib
from collections.abc import Iterable, Sequence
from concurrent.futures import ThreadPoolExecutor, as_completed
from contextlib import suppress
from pathlib import Path
from typing import NamedTuple

TESTS = Path(__file__).resolve().parent
TOP = TESTS.parents[1]
LISTS = TESTS / "mutations"
MOST_SAID = 100
"""Letters of what tests say that are shown."""
SECONDS = 120
"""Tests that take longer hang, and so they see the change."""


class Change(NamedTuple):
    """A change of a file, and the tests that have to see it."""

    file: str
    """Below `python/olr`."""
    text: str
    """What is changed: it is in the file once."""
    into: str
    tests: Sequence[str]
    """As pytest names them, below `python/tests`."""
    reason: str | None = None
    """Why no test can see it."""

    def place(self) -> str:
        """Its file and line."""
        before, found, _ = (TESTS.parent / "olr" / self.file).read_text().partition(self.text)
        return f"{self.file}:{before.count(chr(10)) + 1}" if found else self.file

    def what(self) -> str:
        """What is changed into what, as lines."""
        old, new = (text.strip("\n").splitlines() for text in (self.text, self.into))
        lines = [f"    - {line.strip()}" for line in old if line not in new]
        return "\n".join(lines + [f"    + {line.strip()}" for line in new if line not in old])


class Seen(NamedTuple):
    """What tests say."""

    passed: bool
    said: str
    """The first one that failed, or what pytest said."""


def read_changes(names: Sequence[str]) -> list[Change]:
    """The changes of the lists that are named, or of files whose paths have such a name; all of them without names."""
    found = []
    for file in sorted(LISTS.glob("*.toml")):
        for row in tomllib.loads(file.read_text())["change"]:
            change = Change(**row | {"tests": tuple(row["tests"])})
            if not names or file.stem in names or any(name in change.file for name in names):
                found.append(change)
    return found


def wrong(change: Change) -> str | None:
    """What is wrong with a change, if it can't be made."""
    try:
        source = (TESTS.parent / "olr" / change.file).read_text()
    except OSError as error:
        return f"{error.strerror}"
    if (count := source.count(change.text)) != 1:
        return f"the text is there {count} times" if count else "the text isn't there"
    if change.text == change.into:
        return "it changes nothing"
    try:
        if change.file.endswith(".py"):
            compile(source.replace(change.text, change.into), change.file, "exec")
    except SyntaxError as error:
        return f"it isn't Python: {error.msg}"
    return None


def copy_tree(place: Path) -> None:
    """Copies what tests run: the package, themselves, and the files at the top; links lead to the other folders."""
    (place / "python").mkdir(parents=True)
    for entry in [*TOP.iterdir(), *TESTS.parent.iterdir()]:
        copy = place / entry.relative_to(TOP)
        if entry.name in ("olr", "tests") and entry.is_dir():
            shutil.copytree(entry, copy)
        elif entry.is_file():
            shutil.copy2(entry, copy)
        elif entry != TESTS.parent:
            copy.symlink_to(entry)


def plant(change: Change, place: Path) -> None:
    """Makes a change in a copy."""
    file = place / "python/olr" / change.file
    file.write_text(file.read_text().replace(change.text, change.into))
    for compiled in (file.parent / "__pycache__").glob(f"{file.stem}.*.pyc"):
        compiled.unlink()


def run_tests(tests: Iterable[str], place: Path) -> Seen:
    """Runs tests in a copy until one fails."""
    words = ["-m", "pytest", "-x", "-q", "--tb=line", "-rfE", "-p", "no:cacheprovider"]
    process = subprocess.Popen(
        [sys.executable, *words, *(f"tests/{test}" for test in tests)],
        cwd=place / "python",
        stdin=subprocess.DEVNULL,
        stdout=subprocess.PIPE,
        stderr=subprocess.STDOUT,
        text=True,
        start_new_session=True,
        env={name: it for name, it in os.environ.items() if name != "PYTHONPATH"},
    )
    try:
        text, _ = process.communicate(timeout=SECONDS)
    except subprocess.TimeoutExpired:
        return Seen(False, f"nothing came for {SECONDS} seconds")
    finally:
        with suppress(ProcessLookupError):
            os.killpg(process.pid, signal.SIGKILL)
        process.wait()
    failed = [line for line in text.splitlines() if line.startswith(("FAILED ", "ERROR "))]
    last = (failed or text.strip().splitlines() or ["nothing"])[0 if failed else -1]
    said = last.partition(" - ")[0].partition(" ")[2] or last
    return Seen(process.returncode == 0, said[:MOST_SAID])


def try_change(change: Change, base: Path) -> Seen:
    """Makes a change in a copy of a copy, and runs its tests there."""
    with tempfile.TemporaryDirectory(prefix="olr-mutate.") as folder:
        place = Path(folder, "copy")
        shutil.copytree(base, place, symlinks=True)
        plant(change, place)
        return run_tests(change.tests, place)


def try_all(changes: Sequence[Change], base: Path, jobs: int) -> list[tuple[Change, Seen]]:
    """Tries all changes, several at once, and shows how far it is."""
    found = []
    with ThreadPoolExecutor(jobs) as pool:
        trying = {pool.submit(try_change, change, base): change for change in changes}
        for number, done in enumerate(as_completed(trying), 1):
            change, seen = trying[done], done.result()
            found.append((change, seen))
            word = "SURVIVED" if seen.passed else "seen"
            print(f"[{number}/{len(changes)}] {change.place()}: {word}, {seen.said}", flush=True)
    return found


def require_passing(changes: Sequence[Change], base: Path, jobs: int) -> None:
    """Runs all tests without a change. Ends the program if one fails."""
    tests = {test for change in changes for test in change.tests}
    files: dict[str, list[str]] = {}
    for test in sorted(tests):
        file = test.partition("::")[0]
        if file == test or file not in tests:
            files.setdefault(file, []).append(test)
    print(f"{len(tests)} tests of {len(files)} files, without a change", flush=True)
    with ThreadPoolExecutor(jobs) as pool:
        for seen in pool.map(lambda some: run_tests(some, base), files.values()):
            if not seen.passed:
                sys.exit(f"without a change: {seen.said}")


def main() -> int:
    """Tries the changes that the words choose. Answers the status."""
    parser = argparse.ArgumentParser(description=(__doc__ or "").partition("\n")[0])
    parser.add_argument("names", nargs="*", metavar="NAME", help="a list, or a part of a path")
    parser.add_argument("--jobs", type=int, default=1, help="so many at once; by default 1")
    parser.add_argument("--unchecked", action="store_true", help="don't run them unchanged first")
    words = parser.parse_args()
    changes = read_changes(words.names)
    faults = {change: fault for change in changes if (fault := wrong(change)) is not None}
    changes = [change for change in changes if change not in faults]
    with tempfile.TemporaryDirectory(prefix="olr-mutate.") as folder:
        base = Path(folder, "base")
        copy_tree(base)
        if not words.unchecked:
            require_passing(changes, base, words.jobs)
        found = try_all(changes, base, words.jobs)
    survivors = [change for change, seen in found if seen.passed]
    stale = [change for change, seen in found if not seen.passed and change.reason is not None]
    for change in survivors:
        print(f"survived: {change.place()}: {change.reason or 'NO REASON'}\n{change.what()}")
    for change in stale:
        print(f"seen, although the list has a reason why it isn't: {change.place()}")
    for change, fault in faults.items():
        print(f"can't be made: {change.file}: {fault}\n{change.what()}")
    left = [change for change in survivors if change.reason is None]
    print(f"{len(found)} changes, {len(survivors)} survived, {len(left)} of them without a reason")
    return 1 if left or stale or faults else 0


if __name__ == "__main__":
    sys.exit(main())
