"""What a worker does: the lines of neighbouring groups, for each group as a file that is complete or absent."""

import shutil
from collections import Counter
from collections.abc import Iterable, Iterator, Mapping, Sequence
from contextlib import AbstractContextManager, ExitStack, closing, contextmanager
from dataclasses import dataclass
from pathlib import Path
from socket import gethostname
from typing import IO

from olr.asking.exchange import Asked
from olr.asking.files import MapFiles
from olr.asking.patience import PATIENCE
from olr.asking.processes import Processes
from olr.asking.program import SHIPPED
from olr.asking.records import Record
from olr.errors import ToolError
from olr.model.fault import TOO_LARGE
from olr.model.questions import Setting, What, all_words
from olr.model.reference import read_points
from olr.regions.options import Options
from olr.regions.sharing import groups_of
from olr.regions.store import Store
from olr.running.asked_map import AskedMap
from olr.running.grouping import Group
from olr.running.identity import same_confidence, same_files, same_program, same_store
from olr.running.isolating import isolated
from olr.running.joining import fault_of
from olr.running.kept import Kept
from olr.running.parts import NotWhole, Part
from olr.running.question import Question
from olr.running.run_folder import RunFolder
from olr.temporary import temporary_folder

ANSWERED = "answered"
"""What lines without a fault are counted as."""
LINES = "lines.jsonl"
"""A scratch file."""


@dataclass(frozen=True)
class Job:
    """What is asked about all groups."""

    folder: Path
    """Of the run."""
    map: AskedMap
    question: Question
    groups: str
    """The digest of all groups."""
    patience: float | None = PATIENCE
    """So many seconds the program may take for a line; None for as long as it takes."""
    confidence: Path | None = None
    """The file of a confidence, under the same path on each machine; None for the one that comes with the package there."""

    @property
    def what(self) -> What:
        """The question itself."""
        return self.question.what

    @property
    def settings(self) -> Mapping[str, Setting]:
        """Its tolerances, other numbers and options, by their names."""
        return self.question.options

    def same_confidence(self) -> AbstractContextManager[Path | None]:
        """The file of the confidence on this machine. Raises as the function of that name."""
        return same_confidence(self.confidence or SHIPPED, self.question.confidence)

    def asked(self) -> Asked:
        """What the program is asked."""
        return Asked(self.what, tuple(all_words(self.settings)))


Missing = tuple[Part, Group]
"""A part that isn't there, and its group."""


class GroupsFailed(ToolError):
    """Some of the groups that were asked for together have no part."""

    def __init__(self, counts: Counter[str], reasons: Mapping[int, str]) -> None:
        """The lines of the others are counted as by `answer_groups`. `reasons` says of each group that failed why."""
        super().__init__(counts, reasons)
        self.counts, self.reasons = counts, reasons

    def __str__(self) -> str:
        return "; ".join(self.reasons.values())


def answer_groups(
    job: Job, groups: Sequence[int], scratch: Path | None = None, kept: Kept | None = None
) -> Counter[str]:
    """Writes the lines of neighbouring groups, to a part for each, unless it is there and whole. Answers how many lines have an answer,
    and how many have each fault.

    All are answered on one map. Where that fails each is answered alone: none fails because of another one.

    It runs in a worker, whose files are in a scratch folder, and may be run again after it failed or was killed. On the map of a folder
    processes are asked that are `kept`, or new ones. Raises `GroupsFailed`.
    """
    try:
        return _answer_together(job, groups, scratch, kept)
    except Exception as error:
        if len(groups) == 1:
            raise GroupsFailed(Counter(), {groups[0]: reason_of(error)}) from error
    counts, reasons = Counter[str](), dict[int, str]()
    for group in groups:
        try:
            counts += answer_groups(job, [group], scratch, kept)
        except GroupsFailed as failed:
            reasons |= failed.reasons
    if reasons:
        raise GroupsFailed(counts, reasons)
    return counts


def reason_of(error: BaseException | None) -> str:
    """Why a group failed, as a line."""
    text = " ".join(str(error).split())
    return text if isinstance(error, ToolError) else f"{type(error).__name__}: {text}"


def _answer_together(
    job: Job, groups: Sequence[int], folder: Path | None, kept: Kept | None
) -> Counter[str]:
    """Does what `answer_groups` does, on one map. Raises `ToolError`, also where this machine has another map or another program than
    the run, or one of them changed meanwhile: then no part is written."""
    run = RunFolder(job.folder)
    counts, missing = Counter[str](), list[Missing]()
    for number in groups:
        group = run.group(number, job.groups)
        part = run.part(job.question, number, group)
        try:
            counts += Counter(map(_kind, part.lines()))
        except NotWhole:
            missing.append((part, group))
    if missing and job.map.is_store:
        with _scratch_folder(folder) as scratch:
            return counts + _answer_on_regions(job, missing, scratch)
    own = kept or Kept()
    try:
        for part, group in missing:
            counts += _written(part, _lines_on_folder(job, group, own))
    finally:
        if own is not kept:
            own.end()
    return counts


def _answer_on_regions(job: Job, missing: Sequence[Missing], scratch: Path) -> Counter[str]:
    """Writes the parts of groups, which are asked together on regions of a store, and counts their lines. Raises `ToolError`."""
    with same_store(job.map.path, job.question.store) as store:
        with same_program(job.question.program), job.same_confidence() as confidence:
            answering = _Answering(job, store, scratch, confidence)
            answering.answer([one for _, group in missing for one in group.records()])
    counts = Counter[str]()
    for part, group in missing:
        counts += _written(part, answering.lines(group.numbers))
    return counts


def _lines_on_folder(job: Job, group: Group, kept: Kept) -> Iterator[bytes]:
    """The lines of a group, which is asked on the whole map of a folder. Raises `ToolError`, at the end at the latest."""
    try:
        with ExitStack() as same:
            files = same.enter_context(same_files(job.map, job.question.store))
            same.enter_context(same_program(job.question.program))
            processes = kept.of(files, job.patience, same.enter_context(job.same_confidence()))
            yield from isolated(processes, job.asked(), group.records())
    except BaseException:
        kept.end()
        raise


def _written(part: Part, lines: Iterable[bytes]) -> Counter[str]:
    """Writes a part, and counts its lines. Raises `ToolError`."""
    counts = Counter[str]()

    def counted() -> Iterator[bytes]:
        for line in lines:
            counts[_kind(line)] += 1
            yield line

    part.write(counted())
    return counts


def _kind(line: bytes) -> str:
    """What a line is counted as."""
    return fault_of(line) or ANSWERED


@contextmanager
def _scratch_folder(folder: Path | None) -> Iterator[Path]:
    """A folder within the one where this worker has its files. It is deleted at the end, and by whoever made that one where the worker was
    killed. Raises `ToolError` if something can't be written there."""
    name = f"the scratch folder of a worker on {gethostname()}"
    try:
        with temporary_folder("olr-run.", folder) as made:
            try:
                yield made
            except ToolError as error:
                raise ToolError(str(error).replace(str(made), name)) from error
    except OSError as error:
        raise ToolError(f"{name} can't be written: {error.strerror}") from error


class _Answering:
    """The lines of records, in a file of a scratch folder, in the order in which they were made."""

    def __init__(self, job: Job, store: Store, scratch: Path, confidence: Path | None) -> None:
        self._job, self._store, self._confidence = job, store, confidence
        self._map, self._file = scratch / "map", scratch / LINES
        self._places: dict[int, tuple[int, int]] = {}
        """Where the line of each record begins in the file, and how long it is, in bytes."""

    def answer(self, records: Sequence[Record]) -> None:
        """Writes the lines of records. Raises `ToolError` and `OSError`."""
        points = [read_points(record.text().decode("latin-1")) for record in records]
        none = {record.number for record, read in zip(records, points) if read is None}
        options = Options.of(self._job.asked().numbers())
        with self._file.open("wb+") as stream:
            for group in groups_of(points, options, self._store, self._job.what):
                some = [records[number] for number in group.numbers]
                begin = stream.tell()
                if group.lines is None:
                    stream.writelines(record.line(b"null", TOO_LARGE) for record in some)
                else:
                    self._store.write_map(group.lines, self._map)
                    self._ask(some, none, stream)
                    shutil.rmtree(self._map)
                self._note(some, begin, stream)

    def lines(self, numbers: Iterable[int]) -> Iterator[bytes]:
        """The lines of the records with these numbers, in this order. Raises `OSError`."""
        with self._file.open("rb") as stream:
            for number in numbers:
                begin, size = self._places[number]
                stream.seek(begin)
                yield stream.read(size)

    def _ask(self, records: Sequence[Record], none: set[int], stream: IO[bytes]) -> None:
        """Asks about records on the map that is there, and writes their lines."""
        files = MapFiles.of_folder(self._map)
        asked = Processes(files, patience=self._job.patience, confidence=self._confidence)
        with closing(asked) as processes:
            stream.writelines(isolated(processes, self._job.asked(), records, none))

    def _note(self, records: Sequence[Record], begin: int, stream: IO[bytes]) -> None:
        """Notes where the lines of records are: behind that place, to the end."""
        stream.seek(begin)
        for record, line in zip(records, stream, strict=True):
            self._places[record.number] = begin, len(line)
            begin += len(line)
