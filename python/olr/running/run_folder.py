"""The folder of a run: what was asked, the groups, and a part with the lines of each group that is done.

| file | what it has |
|---|---|
| `run.json` | what was asked, and the digest of the groups: it is written last, so a run has begun where it is there |
| `groups/` | the records by groups |
| `parts/000000.jsonl` .. | the lines of a group: complete or absent |
| `facts/000000.json` .. | what shows that a part is whole: without it a part counts for nothing |
| `failed.txt` | groups that failed, with the reason |
"""

import fcntl
import json
import os
import shutil
from collections.abc import Iterable, Iterator, Mapping
from contextlib import ExitStack, contextmanager, suppress
from dataclasses import asdict, fields
from functools import lru_cache
from pathlib import Path
from typing import Any

from olr.asking.records import Record
from olr.errors import ToolError
from olr.outputs import PREFIX, folders_made, sync, write_whole, writing
from olr.progress import watched
from olr.running.grouping import (
    FILES,
    Group,
    Grouped,
    digests_of,
    read_group,
    usual_size,
    write_groups,
)
from olr.running.identity import Build, shortened
from olr.running.joining import Lines
from olr.running.parts import Part
from olr.running.question import Question
from olr.running.records import reference_of

RUN, GROUPS, PARTS, FACTS, FAILED = "run.json", "groups", "parts", "facts", "failed.txt"
FOLDERS = GROUPS, PARTS, FACTS
CALLED = {"per_group": "per-group", "store": "map"}
"""What parts of a question are called that have other names in the folder."""
VERSION = 4
"""Of the folder."""


class RunFolder:
    """The folder of a run. Workers use it too, each for its own groups."""

    def __init__(self, path: Path, along_curve: bool = True) -> None:
        """`along_curve` says how records are put into groups: as neighbours on the map, or in their order."""
        self.path, self._along_curve = path, along_curve

    def file_of(self, group: int) -> Path:
        """The file with the lines of a group. Groups are counted from 0."""
        return self.path / PARTS / f"{group:06}.jsonl"

    def group(self, number: int, sha256: str) -> Group:
        """The records of a group; `sha256` is the digest of all groups. Raises `ToolError`."""
        return read_group(self.path / GROUPS, number, _digests_kept(self.path / GROUPS, sha256))

    def part(self, question: Question, number: int, group: Group) -> Part:
        """The part with the lines of a group, whether it is there or not."""
        origin = question.of_lines() | {"group": number, "records": group.sha256}
        return Part(self.file_of(number), self._facts_of(number), origin, group.numbers)

    def lines(self, question: Question, grouped: Grouped, number: int) -> Lines:
        """The lines of a group, which are checked as they are read. Raises `NotWhole` and `ToolError`, as `Part.lines`."""
        yield from self.part(question, number, self.group(number, grouped.sha256)).lines()

    def asked_lines(
        self, question: Question, grouped: Grouped, number: int
    ) -> Iterator[tuple[bytes, str]]:
        """The lines of a group, each with the text of its reference. Raises as `lines`."""
        group = self.group(number, grouped.sha256)
        lines = self.part(question, number, group).lines()
        for line, record in zip(lines, group.records(), strict=True):
            yield line, reference_of(record.data)

    def _facts_of(self, group: int) -> Path:
        """The file that shows the part of a group whole."""
        return self.path / FACTS / f"{group:06}.json"

    @contextmanager
    def begun(
        self, question: Question, records: Iterable[Record], resume: bool
    ) -> Iterator[Grouped]:
        """Begins a run, or goes on with the one that is there, which has its records already. Gives how many records and groups it
        has. No other run may use the folder meanwhile.

        Raises `ToolError` if the folder can't be written, holds something else, or holds a run and `resume` isn't given, or one
        with another question, or isn't there and `resume` is given. Where a run doesn't begin, the folder is as it was.
        """
        if resume and not self.path.exists():
            raise ToolError(f"{self.path} isn't there: leave --resume out to begin a run")
        if self.path.exists() and not self.path.is_dir():
            raise ToolError(f"{self.path} is a file: name a folder")
        with ExitStack() as locked:
            with writing(self.path), folders_made(self.path):
                locked.enter_context(self._locked())
                grouped = self._open(question, records, resume)
                self._clear()
            try:
                yield grouped
            finally:
                # A worker may have been ended, or killed, while it wrote.
                with suppress(OSError):
                    self._clear()

    def has_shapes(self) -> bool:
        """Whether there is a run whose lines have coordinates."""
        with suppress(ToolError, OSError):
            return "shape" in self._read()["options"]
        return False

    def sync(self) -> None:
        """Hands over to the disk which parts there are. Raises `ToolError`."""
        for name in (PARTS, FACTS):
            with writing(self.path / name):
                sync(self.path / name)

    def note_failed(self, reasons: Mapping[int, str]) -> None:
        """Writes which groups failed, if any did. Where the disk is full that isn't written."""
        text = "".join(f"{group:06}\t{reason}\n" for group, reason in reasons.items())
        with suppress(ToolError, OSError):
            (self.path / FAILED).unlink(missing_ok=True)
            if reasons:
                write_whole(self.path / FAILED, text.encode())

    def _open(self, question: Question, records: Iterable[Record], resume: bool) -> Grouped:
        """Reads what was begun here, or begins. Raises `OSError` and `ToolError`."""
        if (self.path / RUN).exists():
            if not resume:
                raise ToolError(
                    f"{self.path} holds a run: go on with it by --resume, or name another folder"
                )
            grouped = self._begun_before(question)
            self._require_groups(grouped, question, records)
            return grouped
        if not all(_is_left(entry) for entry in os.scandir(self.path)):
            raise ToolError(f"{self.path} isn't empty: name another folder")
        return self._begin(question, records)

    def _begun_before(self, question: Question) -> Grouped:
        """What was begun here. Raises `ToolError` if that was something else, and `OSError`."""
        there = self._read()
        grouped = Grouped(**there["grouped"])
        wanted = _table(question, grouped.records)
        others = [name for name in wanted if there[name] != wanted[name]]
        if others == ["options"] and {**there["options"], "shape": True} == question.options:
            # Its lines have no coordinates, and are made again.
            self._write(question, grouped)
        elif others:
            which = {
                "map": f" ({shortened(there['store'])}, and not {shortened(question.store)})",
                "program": f" ({Build(**there['program'])}, and not {question.program})",
            }
            names = (CALLED.get(name, name) for name in others)
            named = ", ".join(name + which.get(name, "") for name in names)
            raise ToolError(f"{self.path} holds a run with other {named}: name another folder")
        return grouped

    def _read(self) -> dict[str, Any]:
        """What `run.json` has. Raises `ToolError` if it isn't that of a run, and `OSError`."""
        file = self.path / RUN
        try:
            there: dict[str, Any] = json.loads(file.read_text(encoding="utf-8"))
            if there["version"] != VERSION:
                about = f"{self.path} holds a run of another version of olr-tools"
                raise ToolError(f"{about}: name another folder")
            Build(**there["program"]), Grouped(**there["grouped"])
            if there.keys() != {"version", "grouped", *(one.name for one in fields(Question))}:
                raise ValueError("other names")
        except (ValueError, LookupError, TypeError) as error:
            raise ToolError(f"{file} isn't understood: name another folder") from error
        return there

    def _begin(self, question: Question, records: Iterable[Record]) -> Grouped:
        """Writes the groups, and then what was asked. Raises `OSError` and `ToolError`: then the folder is empty."""
        try:
            for name in FOLDERS:
                self._make_empty(name)
            grouped = self._write_groups(question, records)
            self._write(question, grouped)
        except BaseException:
            for name in FOLDERS:
                shutil.rmtree(self.path / name, ignore_errors=True)
            raise
        return grouped

    def _write(self, question: Question, grouped: Grouped) -> None:
        """Writes what was asked. Raises `OSError`."""
        table = _table(question, grouped.records) | {"grouped": grouped._asdict()}
        write_whole(self.path / RUN, (json.dumps(table, indent=4) + "\n").encode(), True)

    def _require_groups(
        self, grouped: Grouped, question: Question, records: Iterable[Record]
    ) -> None:
        """Writes the groups again where they aren't those of the run. Raises `OSError` and `ToolError`."""
        folder = self.path / GROUPS
        try:
            digests = digests_of(folder, grouped.sha256)
            for number in watched(range(grouped.groups), "groups checked", grouped.groups):
                read_group(folder, number, digests)
        except ToolError:
            self._make_empty(GROUPS)
            if self._write_groups(question, records) != grouped:
                raise ToolError(
                    f"{self.path} has groups of another version of olr-tools: name another folder"
                ) from None

    def _write_groups(self, question: Question, records: Iterable[Record]) -> Grouped:
        """Writes the groups. Raises `OSError` and `ToolError`."""
        groups = self.path / GROUPS
        return write_groups(records, groups, question.per_group, self._along_curve)

    def _make_empty(self, name: str) -> None:
        """Makes a folder, instead of what is there. Raises `OSError`."""
        shutil.rmtree(self.path / name, ignore_errors=True)
        (self.path / name).mkdir()

    def _clear(self) -> None:
        """Deletes what was left half written by a process that was killed, and makes the folders that are missing. Raises `OSError`."""
        for folder in (self.path, *(self.path / name for name in FOLDERS)):
            folder.mkdir(exist_ok=True)
            for entry in os.scandir(folder):
                if entry.name.startswith(PREFIX):
                    shutil.rmtree(entry.path, ignore_errors=True)

    @contextmanager
    def _locked(self) -> Iterator[None]:
        """Keeps other runs from the folder. Raises `ToolError` if one is under way."""
        folder = os.open(self.path, os.O_RDONLY)
        try:
            fcntl.flock(folder, fcntl.LOCK_EX | fcntl.LOCK_NB)
            yield
        except BlockingIOError as error:
            raise ToolError(f"{self.path} is in use by another run: wait for its end") from error
        finally:
            os.close(folder)


@lru_cache(maxsize=16)
def _digests_kept(folder: Path, sha256: str) -> bytes:
    """The digests of groups, which were compared when they were first read. Raises `ToolError`."""
    return digests_of(folder, sha256)


def _is_left(entry: "os.DirEntry[str]") -> bool:
    """Whether something was left by a run that was killed before it had begun."""
    if entry.name.startswith(PREFIX):
        return True
    names = FILES if entry.name == GROUPS else ()
    return entry.name in FOLDERS and entry.is_dir() and set(os.listdir(entry)) <= set(names)


def _table(question: Question, records: int) -> dict[str, Any]:
    """A question about so many records as `run.json` has it."""
    table = {"version": VERSION, **asdict(question)}
    return table | {"per_group": question.per_group or usual_size(records)}
