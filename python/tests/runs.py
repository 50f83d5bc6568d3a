"""What tests of `olr-tools run` share: a town as a store, its messages and what `olr batch` answers; runs, and programs that kill them."""

import importlib
import os
import pytest
import re
import signal
import subprocess
import time
from collections.abc import Iterable, Iterator, Mapping, Sequence
from contextlib import contextmanager, suppress
from dataclasses import replace
from functools import partial
from io import BytesIO, TextIOWrapper
from ipaddress import IPv4Address, IPv6Address, ip_address
from pathlib import Path
from typing import TYPE_CHECKING, NamedTuple

from asking import draw_map, draw_references
from conftest import OF_PROGRAM, TOP, Program, Tools
from forked import Forked
from olr.asking.program import SHIPPED
from olr.content import Content
from olr.messages.message import Reading
from olr.model.questions import LIKELY, all_words
from olr.regions.making import make_store_of_folder
from olr.regions.store import Store
from olr.running.answering import GroupsFailed, Job, answer_groups
from olr.running.asked_map import AskedMap
from olr.running.grouping import Grouped
from olr.running.identity import Build
from olr.running.joining import join
from olr.running.question import Question, all_settings
from olr.running.records import read_records
from olr.running.run_folder import RunFolder
from olr.running.tasks import Done, Outcome, outcome_of

if TYPE_CHECKING:
    from schedulers import Shared

# Forks have it then.
importlib.import_module("olr.commands.run")

MARK = "OLR_TEST_RUN"
"""The variable by which the processes of a run are found."""


class Town(NamedTuple):
    """A drawn map with messages."""

    folder: Path
    store: Path
    messages: Path
    """With a record of each kind that has no answer."""
    plain: Path
    """With references alone."""


def make_town(folder: Path) -> Town:
    """Draws a map with bans, its store, and messages."""
    drawn = draw_map(folder / "map")
    script = TOP / "bench/generate_bans.py"
    subprocess.run(["/usr/bin/python3", script, "--map", drawn, "--bans", "2000"], check=True)
    make_store_of_folder(drawn, folder / "town.gpkg")
    texts = [text.encode() for text in draw_references(drawn, 300)]
    plain = folder / "plain.txt"
    plain.write_bytes(b"".join(b"%d\t%b\n" % pair for pair in enumerate(texts)))
    messages = folder / "messages.txt"
    records = [
        b'"\x01\x7f\\ \xc3\xa9\t' + texts[1],
        b"\xff\t" + texts[2],
        b"",
        texts[3] + b"\r",
        b"\t" + texts[4] + b"\r\r",
        b"x" * 70_000,
        b"\r",
        b"a\tb\t" + texts[5],
        *plain.read_bytes().splitlines(),
        texts[6],
    ]
    messages.write_bytes(b"\n".join(records))
    return Town(drawn, folder / "town.gpkg", messages, plain)


def question_about(
    town: Town, program: Program, messages: Path, options: Mapping[str, int] = {}
) -> Question:
    """What a run of `match` on a town is asked."""
    with Store.open(town.store) as store:
        digest = store.digest
    build = Build.of(program.path)
    return Question(Content.of(messages), digest, build, "match", all_settings("match", options))


def answer_in_this_process(patch: pytest.MonkeyPatch, scratch: Path, program: Path) -> None:
    """Groups are answered in this process, without workers, also by the command `run`."""
    scratch.mkdir(exist_ok=True)
    patch.setattr("olr.commands.run.answer_here", partial(answer_all, scratch=scratch))
    patch.setenv("OLR_PROGRAM", os.fspath(program))


def answer_all(
    _workers: object, job: Job, grouped: Grouped, scratch: Path | None = None
) -> Outcome:
    """Answers all groups in this process, each alone and once. What a worker raises is the reason of a group that failed."""

    def done() -> Iterator[Done]:
        for group in range(grouped.groups):
            task = range(group, group + 1)
            try:
                yield task, answer_groups(job, task, scratch)
            except GroupsFailed as error:
                yield task, error

    return outcome_of(done())


class Begun:
    """A run on a town whose groups are answered in this process, one by one."""

    def __init__(
        self,
        town: Town,
        program: Program,
        folder: Path,
        messages: Path,
        per_group: int = 30,
        along_curve: bool = True,
    ) -> None:
        self.folder = RunFolder(folder, along_curve)
        self.question = replace(question_about(town, program, messages), per_group=per_group)
        records = read_records(messages, Reading())
        with self.folder.begun(self.question, records, False) as self.grouped:
            asked = AskedMap.of(town.store)
            self.job = Job(folder, asked, self.question, self.grouped.sha256)

    def groups(self) -> range:
        """The numbers of all groups."""
        return range(self.grouped.groups)

    def has(self, group: int) -> bool:
        """Whether there is a file with the lines of a group."""
        return self.folder.file_of(group).exists()

    def answer(self, groups: Sequence[int], job: Job | None = None, together: int = 1) -> int:
        """Answers groups, so many together. Tells how many lines they have."""
        tasks = [groups[first : first + together] for first in range(0, len(groups), together)]
        return sum(answer_groups(job or self.job, task).total() for task in tasks)

    def joined(self) -> bytes:
        """The lines of all parts, in the order of the records."""
        lines = [self.folder.lines(self.question, self.grouped, one) for one in self.groups()]
        file = self.folder.path / "joined"
        join(lines, file, self.grouped.records, force=True)
        return file.read_bytes()


def lines_of_batch(program: Program, folder: Path, what: str, messages: Path) -> bytes:
    """What one `olr batch` says on the whole map of a folder."""
    command = [program.path, "batch", what, "--map", folder, "--input", messages]
    return subprocess.run(list(map(str, command)), capture_output=True, check=True).stdout


class Ended(NamedTuple):
    """A run that ended."""

    status: int
    stdout: str
    stderr: str
    """Without how far it was, which a slow machine says."""


def without_progress(stderr: str) -> str:
    """What was said but for how far a run was."""
    lines = stderr.splitlines(keepends=True)
    return "".join(line for line in lines if not re.match("[a-zA-Z ]+: [0-9,]+( of |$)", line))


def likely_words(what: str) -> list[object]:
    """The words of a question as a run asks it: of places those of the likely order, by the confidence of the package."""
    return [*all_words(LIKELY), "--confidence", SHIPPED] if what == "places" else []


class Runs:
    """Runs of one town, in a folder of their own."""

    def __init__(self, town: Town, program: Program, folder: Path) -> None:
        self.town, self.program, self.folder = town, program, folder
        self.out = folder / "out"
        self.joined = folder / "answers.jsonl"
        self.scratch = folder / "scratch"

    def words(self, *words: object, messages: Path | None = None) -> list[str]:
        """The words of a run. By default its map is the store."""
        given = ["run", messages or self.town.messages, "--out", self.out, *OF_PROGRAM]
        given += words if "--map" in words else ["--store", self.town.store, *words]
        return [str(TOP / "olr-tools"), *map(str, given)]

    def run(self, *words: object, program: Path | None = None, workers: int = 2) -> Ended:
        """A run, until it ended and none of its processes is left."""
        with self.started(*words, "--workers", workers, program=program) as run:
            status = run.wait(120)
            self.await_end()
            return Ended(status, run.stdout.read(), without_progress(run.errors.read_text()))

    @contextmanager
    def started(self, *words: object, program: Path | None = None) -> Iterator[Forked]:
        """A run as a process of its own, which is the first one of its session. It doesn't outlive this."""
        errors = self.folder / "stderr"
        with Forked(self.words(*words)[1:], self.environment(program), errors) as process:
            try:
                yield process
            finally:
                process.kill()

    def run_with(self, shared: "Shared", *words: object, program: Path) -> Ended:
        """A run in this process, with workers of Dask that are there."""
        shared.ask(program)
        with pytest.MonkeyPatch.context() as patch:
            patch.setenv("OLR_PROGRAM", os.fspath(shared.program))
            ended = Tools().run(*self.words(*words, "--scheduler", shared.address)[1:])
        return Ended(ended.returncode, ended.stdout, without_progress(ended.stderr))

    def run_here(
        self,
        *words: object,
        messages: Path | None = None,
        program: Path | None = None,
        given: bytes = b"",
    ) -> Ended:
        """A run in this process, without workers: what becomes of folders and files is the same."""
        with pytest.MonkeyPatch.context() as patch:
            answer_in_this_process(patch, self.scratch, program or self.program.path)
            patch.setattr("sys.stdin", TextIOWrapper(BytesIO(given)))
            patch.setenv("TMPDIR", os.fspath(self.scratch))
            patch.setattr("tempfile.tempdir", None)
            ended = Tools().run(*self.words(*words, messages=messages)[1:])
        return Ended(ended.returncode, ended.stdout, without_progress(ended.stderr))

    def environment(self, program: Path | None = None) -> dict[str, str]:
        """The variables of a run's processes."""
        self.scratch.mkdir(exist_ok=True)
        return os.environ | {
            "OLR_PROGRAM": str(program or self.program.path),
            MARK: str(self.folder),
            "TMPDIR": str(self.scratch),
        }

    def left(self) -> list[int]:
        """The processes of runs that haven't ended."""
        found = []
        for entry in Path("/proc").iterdir():
            try:
                variables = (entry / "environ").read_bytes().split(b"\0")
                is_dead = b"\nState:\tZ" in (entry / "status").read_bytes()
            except OSError:
                continue
            if f"{MARK}={self.folder}".encode() in variables and not is_dead:
                found.append(int(entry.name))
        return found

    def await_end(self) -> None:
        """Waits until no process of a run is left."""
        for _ in range(600):
            if not self.left():
                return
            time.sleep(0.1)
        raise AssertionError(f"processes are left: {self.left()}")

    def end_all(self) -> None:
        """Ends what is left of the runs."""
        for process in self.left():
            with suppress(ProcessLookupError):
                os.kill(process, signal.SIGKILL)

    def parts(self) -> list[str]:
        """The names of all that is in the folder of parts."""
        return sorted(os.listdir(self.out / "parts"))

    def expected(self, *words: object, what: str = "match", messages: Path | None = None) -> bytes:
        """What one `olr batch` on the whole map says."""
        command = [self.program.path, "batch", what, "--map", self.town.folder, *words]
        with (messages or self.town.messages).open("rb") as records:
            ended = subprocess.run(
                list(map(str, command)), stdin=records, capture_output=True, check=True
            )
        return ended.stdout

    def killing(self, whom: str, sign: str = "KILL", parts: int = 2) -> Path:
        """A program that sends a signal to a worker (`os.getppid()`), to the run itself (`run`) or to all of its processes (`-run`), once,
        when so many parts are there and a worker starts it, and then neither reads nor writes. Else it is the program `olr`.
        """
        script = self.folder / f"killing-{sign}"
        script.write_text(
            f"""#!/usr/bin/python3 -IS
import os, sys, time

def parts():
    return [name for name in os.listdir({str(self.out / 'parts')!r}) if name[0] != "."]

run = os.getsid(0)
if os.getppid() != run and len(parts()) >= {parts}:
    try:
        os.mkdir({str(self.flag(sign))!r})
        os.kill({whom}, {signal.Signals[f"SIG{sign}"].value})
        time.sleep(600)
    except FileExistsError:
        pass
os.execv({str(self.program.path)!r}, [{str(self.program.path)!r}, *sys.argv[1:]])
"""
        )
        script.chmod(0o755)
        return script

    def waiting(self) -> Path:
        """A program that makes the file `asked` when a worker asks it, and then waits for the file `go`."""
        script = self.folder / "waiting"
        script.write_text(
            f"""#!/bin/sh
if [ -e {self.out}/parts ]; then
    touch {self.folder}/asked
    while [ ! -e {self.folder}/go ]; do sleep 0.1; done
fi
exec {self.program.path} "$@"
"""
        )
        script.chmod(0o755)
        return script

    def await_asked(self, run: "Forked | subprocess.Popen[str]") -> None:
        """Waits until a worker of a run has asked the program of `waiting`."""
        while not (self.folder / "asked").exists():
            assert run.poll() is None
            time.sleep(0.1)

    def flag(self, sign: str = "KILL") -> Path:
        """What is there once that signal was sent."""
        return self.folder / f"killed-{sign}"


def listened_on(processes: Iterable[int]) -> list[IPv4Address | IPv6Address]:
    """The addresses on which processes listen for connections, one for each socket: the kernel has them in words of four bytes."""
    sockets = {file for process in processes for file in open_files(process)}
    found = []
    for table in ("tcp", "tcp6"):
        for row in Path("/proc/net", table).read_text().splitlines()[1:]:
            _, local, _, state, *_, inode = row.split()[:10]
            if state == "0A" and f"socket:[{inode}]" in sockets:
                data = bytes.fromhex(local.split(":")[0])
                words = [data[start : start + 4][::-1] for start in range(0, len(data), 4)]
                found.append(ip_address(b"".join(words)))
    return found


def open_files(process: int) -> Iterator[str]:
    """What a process has open, as far as it hasn't ended meanwhile."""
    with suppress(OSError):
        for file in Path(f"/proc/{process}/fd").iterdir():
            with suppress(OSError):
                yield os.readlink(file)


def identities(runs: Runs) -> dict[str, tuple[int, int]]:
    """Which file each part is, and when it was written."""
    files = ((name, (runs.out / "parts" / name).stat()) for name in runs.parts())
    return {name: (file.st_ino, file.st_mtime_ns) for name, file in files if name[0] != "."}


def assert_resumes(
    runs: Runs,
    *words: object,
    messages: Path | None = None,
    program: Path | None = None,
) -> None:
    """A run goes on, keeps the parts that are there, and has all answers. It goes on in this process: how workers answer groups is
    tested by the runs before."""
    before = {
        name: file
        for name, file in identities(runs).items()
        if (runs.out / "facts" / name).with_suffix(".json").exists()
    }
    words = (*words, "--resume", "--join", runs.joined)
    ended = runs.run_here(*words, messages=messages, program=program)
    assert (ended.status, ended.stderr) == (0, "")
    assert identities(runs).items() >= before.items()
    assert all(name[0] != "." for name in runs.parts())
    assert runs.joined.read_bytes() == runs.expected(messages=messages)
    assert not (runs.out / "failed.txt").exists()
