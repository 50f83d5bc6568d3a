"""Status 0 means one line for each record: parts and groups that are damaged, and what becomes of them."""

import json
import os
import pytest
import re
import shutil
from collections.abc import Callable, Iterator
from hashlib import sha256
from pathlib import Path

from conftest import OF_PROGRAM, Program
from olr.errors import ToolError
from olr.running.answering import Job
from olr.running.tasks import Outcome
from olr.running.grouping import Grouped, digests_of
from olr.running.joining import join, number_of
from olr.running.parts import NotWhole, Part
from olr.tools import run as olr_tools
from runs import Begun, Town, answer_all, lines_of_batch

Damage = Callable[[Path], object]
"""What is done to a run's folder, whose part 3 is damaged, or to a file."""

pytestmark = pytest.mark.usefixtures("here")


def part(folder: Path, group: int = 3) -> Path:
    """The lines of a group."""
    return folder / f"parts/{group:06}.jsonl"


def facts(folder: Path, group: int = 3) -> Path:
    """What shows a part whole."""
    return folder / f"facts/{group:06}.json"


def cut(file: Path, lines: int, more: int = 0) -> None:
    """Leaves so many lines of a file, and so many bytes behind them."""
    data = file.read_bytes()
    end = sum(map(len, data.splitlines(keepends=True)[:lines]))
    file.write_bytes(data[: end + more])


def doubled(file: Path) -> None:
    """Writes a line of a file over the next one of its length, or else over the next one."""
    lines = file.read_bytes().splitlines(keepends=True)
    lines[4] = lines[3]
    file.write_bytes(b"".join(lines))


def one_more(file: Path) -> None:
    """Writes the last line once more."""
    file.write_bytes(file.read_bytes() + file.read_bytes().splitlines(keepends=True)[-1])


def one_digit(file: Path) -> None:
    """Changes a digit within an answer."""
    data = bytearray(file.read_bytes())
    data[data.index(b'"line":') + 7] ^= 1
    file.write_bytes(data)


def agreeing(folder: Path, damage: Damage) -> None:
    """Damages a part, and writes facts that agree with its bytes."""
    damage(part(folder))
    data = part(folder).read_bytes()
    other_facts(folder, bytes=len(data), sha256=sha256(data).hexdigest())


def other_facts(folder: Path, **changes: object) -> None:
    """Changes facts of a part."""
    facts(folder).write_text(json.dumps(json.loads(facts(folder).read_text()) | changes))


DAMAGES: dict[str, tuple[Damage, str]] = {
    "cut at a line's end": (lambda run: cut(part(run), 20), "bytes, and [0-9]+ were written"),
    "emptied": (lambda run: cut(part(run), 0), "it has 0 bytes, and [0-9]+ were written"),
    "copied over": (lambda run: shutil.copy(part(run, 4), part(run)), ""),
    "zeros": (lambda run: part(run).write_bytes(bytes(4096)), "it has 4,096 bytes, and"),
    "cut within a line": (lambda run: cut(part(run), 7, 9), "bytes, and [0-9]+ were written"),
    "zeros of its length": (
        lambda run: part(run).write_bytes(bytes(part(run).stat().st_size)),
        "a line has no number of a record at its end",
    ),
    "one digit": (lambda run: one_digit(part(run)), "its bytes aren't those that were written"),
    "a line twice": (lambda run: doubled(part(run)), ""),
    "a line twice, and facts of that": (
        lambda run: agreeing(run, doubled),
        "there is a line of record [0-9]+ in place of record [0-9]+",
    ),
    "a line less, and facts of that": (
        lambda run: agreeing(run, lambda file: cut(file, 20)),
        "there is no line of record [0-9]+",
    ),
    "a line more, and facts of that": (
        lambda run: agreeing(run, one_more),
        "there is a line of record [0-9]+ at its end",
    ),
    "not there": (lambda run: part(run).unlink(), "000003.jsonl isn't there"),
    "copied over with facts": (
        lambda run: (
            shutil.copy(part(run, 4), part(run)),
            shutil.copy(facts(run, 4), facts(run)),
        ),
        "000003.json has other group, records",
    ),
    "no facts": (lambda run: facts(run).unlink(), "000003.json isn't there"),
    "half of the facts": (lambda run: cut(facts(run), 3), "000003.json isn't understood"),
    "facts of something else": (
        lambda run: facts(run).write_text("[1, 2]"),
        "000003.json isn't understood",
    ),
    "facts of another map": (
        lambda run: other_facts(run, store="0" * 64),
        "000003.json has other store",
    ),
    "facts of another program": (
        lambda run: other_facts(run, program={"version": "olr 7", "sha256": "0" * 64}),
        "000003.json has other program",
    ),
    "facts of another question": (
        lambda run: other_facts(run, what="why", lines=29),
        "000003.json has other what, lines",
    ),
}


@pytest.fixture(scope="module")
def whole(town: Town, program: Program, tmp_path_factory: pytest.TempPathFactory) -> Iterator[Path]:
    """The folder of a run that is done."""
    folder = tmp_path_factory.mktemp("whole")
    with pytest.MonkeyPatch.context() as patch:
        patch.setenv("OLR_PROGRAM", os.fspath(program.path))
        begun = Begun(town, program, folder / "run", town.messages)
        begun.answer(begun.groups())
    yield folder / "run"


@pytest.fixture(scope="module")
def expected(town: Town, program: Program) -> bytes:
    """What one `olr batch` says on the whole map."""
    return lines_of_batch(program, town.folder, "match", town.messages)


class Copied:
    """A copy of a run that is done, and the command that goes on with it and joins its parts."""

    def __init__(self, whole: Path, town: Town, folder: Path) -> None:
        self.out, self.joined = folder / "out", folder / "joined"
        shutil.copytree(whole, self.out)
        words = ["run", town.messages, *OF_PROGRAM, "--store", town.store, "--out", self.out]
        self.words = list(map(str, [*words, "--per-group", 30, "--resume", "--join", self.joined]))

    def stamps(self) -> dict[str, tuple[int, int]]:
        """Which file each part is, and when it was written."""
        files = {file.name: file.stat() for file in (self.out / "parts").iterdir()}
        return {name: (file.st_ino, file.st_mtime_ns) for name, file in files.items()}


@pytest.fixture
def copied(whole: Path, town: Town, tmp_path: Path) -> Copied:
    """A copy of a run that is done."""
    return Copied(whole, town, tmp_path)


@pytest.mark.parametrize("kind", DAMAGES)
def test_resume_makes_a_part_again(
    kind: str, copied: Copied, expected: bytes, capsys: pytest.CaptureFixture[str]
) -> None:
    """That one alone."""
    names = copied.stamps().keys()
    DAMAGES[kind][0](copied.out)
    before = copied.stamps()
    assert olr_tools(copied.words) == 0
    said = capsys.readouterr()
    assert said.err == "" and said.out.endswith(
        f"{copied.joined}: {len(expected.splitlines())} lines\n"
    )
    assert copied.joined.read_bytes() == expected
    after = copied.stamps()
    assert after.keys() == names
    assert [name for name in names if after[name] != before.get(name)] == ["000003.jsonl"]


@pytest.mark.parametrize("kind", DAMAGES)
def test_join_refuses_a_part(
    kind: str,
    copied: Copied,
    monkeypatch: pytest.MonkeyPatch,
    capsys: pytest.CaptureFixture[str],
) -> None:
    """Here it is damaged after all groups were done. The next run joins them."""
    damage, why = DAMAGES[kind]

    def answer_and_damage(workers: object, job: Job, groups: Grouped) -> Outcome:
        outcome = answer_all(workers, job, groups)
        damage(copied.out)
        return outcome

    monkeypatch.setattr("olr.commands.run.answer_here", answer_and_damage)
    copied.joined.write_text("old")
    assert olr_tools([*copied.words, "--force"]) == 1
    said = capsys.readouterr().err
    assert said.startswith(f"olr-tools: {part(copied.out)} isn't whole: ") and said.count("\n") == 1
    assert said.endswith(": go on by --resume, which makes it again\n")
    assert re.search(why, said)
    assert copied.joined.read_text() == "old" and len(os.listdir(copied.joined.parent)) == 3


def byte_changed(file: Path, at: int) -> None:
    """Changes a byte of a file."""
    data = bytearray(file.read_bytes())
    data[at] ^= 1
    file.write_bytes(data)


def of_another_run(groups: Path, town: Town, program: Program, *names: str) -> None:
    """Takes files of groups from a run about the first half of the messages twice."""
    messages = groups.parent.parent / "other messages"
    half = town.messages.read_bytes().splitlines(keepends=True)[:150]
    messages.write_bytes(b"".join(half * 2))
    begun = Begun(town, program, groups.parent.parent / "other", messages)
    for name in names or os.listdir(begun.folder.path / "groups"):
        shutil.copy(begun.folder.path / "groups" / name, groups)


GROUPS: dict[str, Callable[[Path, Town, Program], object]] = {
    "a byte of a record": (lambda it, *_: byte_changed(it / "records.txt", 3000)),
    "a number": (lambda it, *_: byte_changed(it / "numbers.bin", 800)),
    "a beginning": (lambda it, *_: byte_changed(it / "groups.bin", 56)),
    "a sign": (lambda it, *_: byte_changed(it / "groups.bin", 55)),
    "far beyond": (lambda it, *_: (it / "groups.bin").write_bytes(b"\xff\xff\xff\x7f" * 99)),
    "a digest": (lambda it, *_: byte_changed(it / "digests.bin", 70)),
    "cut records": (lambda it, *_: os.truncate(it / "records.txt", 9000)),
    "cut numbers": (lambda it, *_: os.truncate(it / "numbers.bin", 1001)),
    "no beginnings": (lambda it, *_: os.truncate(it / "groups.bin", 0)),
    "no digests": (lambda it, *_: os.truncate(it / "digests.bin", 0)),
    "no records": (lambda it, *_: (it / "records.txt").unlink()),
    "nothing": (lambda it, *_: shutil.rmtree(it)),
    "records of another run": (lambda it, *them: of_another_run(it, *them, "records.txt")),
    "another run": of_another_run,
}


@pytest.mark.parametrize("kind", GROUPS)
def test_groups_that_are_damaged(
    kind: str,
    copied: Copied,
    town: Town,
    program: Program,
    expected: bytes,
    monkeypatch: pytest.MonkeyPatch,
    capsys: pytest.CaptureFixture[str],
) -> None:
    """Workers refuse the groups that aren't those of the run, parts that were there too, and the next run writes them again."""
    for group in (1, 2, 7):
        part(copied.out, group).unlink()
    before = copied.stamps()

    def damage_and_answer(workers: object, job: Job, groups: Grouped) -> Outcome:
        GROUPS[kind](copied.out / "groups", town, program)
        return answer_all(workers, job, groups)

    with monkeypatch.context() as patch:
        patch.setattr("olr.running.run_folder._digests_kept", digests_of)
        patch.setattr("olr.commands.run.answer_here", damage_and_answer)
        assert olr_tools(copied.words) == 1
    said = capsys.readouterr().err
    assert re.search("olr-tools: [0-9]+ of 11 groups failed, listed in .*/failed.txt: ", said)
    assert re.search("groups (isn't as the run wrote it|can't be read: No such file)", said)
    assert not copied.joined.exists()
    assert olr_tools(copied.words) == 0
    assert capsys.readouterr().err == "" and copied.joined.read_bytes() == expected
    after = copied.stamps()
    assert all(after[name] == before[name] for name in before)


@pytest.mark.parametrize(("name", "value"), [("records", 308), ("groups", 10)])
def test_numbers_of_a_run_that_are_wrong(
    name: str, value: int, copied: Copied, capsys: pytest.CaptureFixture[str]
) -> None:
    """What is counted isn't what was begun: the status isn't 0."""
    file = copied.out / "run.json"
    table = json.loads(file.read_text())
    table["grouped"][name] = value
    file.write_text(json.dumps(table))
    assert olr_tools(copied.words) == 1
    said = f"olr-tools: {copied.out} hasn't one line for each record: go on by --resume\n"
    assert capsys.readouterr().err == said and not copied.joined.exists()


def test_lines_that_arent_those_of_the_records(tmp_path: Path) -> None:
    """No part is made of them."""
    folder = tmp_path / "new"
    folder.mkdir()
    made = Part(folder / "part", folder / "facts", {"group": 0}, [3, 5, 9])
    lines = [b'{"answer":null,"record":%d}\n' % number for number in range(12)]
    wrongs: list[tuple[list[int], str]] = [
        ([3, 5], "there is no line of record 9"),
        ([3, 5, 9, 10], "there is a line of record 10 at its end"),
        ([3, 3, 5, 9], "there is a line of record 3 in place of record 5"),
        ([5, 3, 9], "there is a line of record 5 in place of record 3"),
        ([], "there is no line of record 3"),
    ]
    for wrong, why in wrongs:
        with pytest.raises(ToolError, match=f"part would not be whole: {why}"):
            made.write(lines[number] for number in wrong)
    with pytest.raises(ToolError, match="part would not be whole: a line has no number"):
        made.write([b"half a line"])
    assert os.listdir(folder) == []
    with pytest.raises(NotWhole, match="part isn't whole: .*facts isn't there: go on by --resume"):
        list(made.lines())
    right = [lines[number] for number in (3, 5, 9)]
    made.write(iter(right))
    assert list(made.lines()) == right


def test_lines_that_are_joined_are_counted(tmp_path: Path) -> None:
    """Whatever the files say."""
    lines = [b'{"record":%d}\n' % number for number in range(1, 9)]
    joined = tmp_path / "joined"
    for files, why in (
        ([[1, 3, 5], [2, 4]], "there are 5 lines for 6 records: go on by --resume"),
        ([[1, 3, 5], [2, 3, 4]], "there are two lines for record 3: go on by --resume"),
        ([[1, 3, 2], [4, 5, 6]], "there are two lines for record 2: go on by --resume"),
        ([[1, 2, 3], [4, 5, 6, 7]], "there are 7 lines for 6 records: go on by --resume"),
    ):
        with pytest.raises(ToolError, match=why):
            join([(lines[one - 1] for one in numbers) for numbers in files], joined, 6)
        assert not joined.exists()


@pytest.mark.parametrize(
    "line", [b"", b"\n", b"{}\n", b'{"record":}\n', b'{"record":7}', b'{"record":-7}\n', b"\0" * 99]
)
def test_lines_that_have_no_number(line: bytes) -> None:
    with pytest.raises(ValueError, match="a line has no number of a record at its end"):
        number_of(line)
