"""`olr-tools run` whose tasks have several groups: they are answered on one map, and none fails because of another one."""

import pytest
from collections import Counter
from collections.abc import Sequence
from distributed import Client
from pathlib import Path

from bad_programs import bad_program, starts
from conftest import Program
from olr.running.answering import ANSWERED, GroupsFailed, Job, answer_groups
from olr.running.cluster import answer_all
from olr.running.grouping import Grouped
from olr.running.tasks import tasks_of
from runs import Begun, Town, lines_of_batch


@pytest.fixture
def begun(here: None, town: Town, program: Program, tmp_path: Path) -> Begun:
    """A run of eleven groups, of which none is answered."""
    return Begun(town, program, tmp_path / "run", town.messages)


def test_one_run_of_the_program(
    begun: Begun, town: Town, program: Program, tmp_path: Path, monkeypatch: pytest.MonkeyPatch
) -> None:
    """It answers all groups. The lines are those of one batch, in the parts of their groups."""
    log = bad_program(tmp_path / "logging", program, {})
    monkeypatch.setattr("olr.asking.processes.find_program", lambda _: log)
    groups = begun.groups()
    counts = answer_groups(begun.job, groups)
    assert len(groups) == 11 and starts(log) == 1
    expected = lines_of_batch(program, town.folder, "match", town.messages)
    assert begun.joined() == expected
    assert counts.total() == len(expected.splitlines())
    assert answer_groups(begun.job, groups) == counts and starts(log) == 1


def test_parts_that_are_there(begun: Begun, town: Town, program: Program) -> None:
    """They stay, and their lines are counted."""
    first = sum(answer_groups(begun.job, [group]).total() for group in (2, 3, 10))
    before = {group: begun.folder.file_of(group).stat().st_ino for group in (2, 3, 10)}
    counts = answer_groups(begun.job, begun.groups())
    assert 0 < first < counts.total() == begun.grouped.records
    assert before == {group: begun.folder.file_of(group).stat().st_ino for group in before}
    assert begun.joined() == lines_of_batch(program, town.folder, "match", town.messages)


def test_one_group_that_fails(begun: Begun, town: Town, program: Program) -> None:
    """Its part can't be written. The others have theirs, and are counted."""
    in_its_way = begun.folder.file_of(4)
    in_its_way.mkdir()
    with pytest.raises(GroupsFailed, match="can't be .*: Is a directory$") as caught:
        answer_groups(begun.job, begun.groups())
    assert list(caught.value.reasons) == [4]
    assert caught.value.counts.total() == begun.grouped.records - 28
    others = [group for group in begun.groups() if group != 4]
    assert all(begun.folder.file_of(group).is_file() for group in others)
    in_its_way.rmdir()
    answer_groups(begun.job, begun.groups())
    assert begun.joined() == lines_of_batch(program, town.folder, "match", town.messages)


def test_groups_that_are_damaged(begun: Begun) -> None:
    """Of two groups the bytes of a record were changed. They have no part, and the others have."""
    file = begun.folder.path / "groups" / "records.txt"
    data = bytearray(file.read_bytes())
    for share in (0.0, 1.0):
        data[int(share * (len(data) - 4))] ^= 1
    file.write_bytes(data)
    with pytest.raises(GroupsFailed) as caught:
        answer_groups(begun.job, begun.groups())
    assert set(caught.value.reasons) == {0, 10}
    assert all("isn't as the run wrote it" in reason for reason in caught.value.reasons.values())
    assert [begun.has(group) for group in begun.groups()] == [False, *[True] * 9, False]


@pytest.mark.parametrize(
    ("records", "groups", "workers", "sizes"),
    [
        (20_000, 1000, 1, [50] * 20),
        (20_000, 1000, 4, [31] * 32 + [8]),
        (20_000, 32, 4, [1] * 32),
        (310, 11, 2, [1] * 11),
        (310, 62, 2, [3] * 20 + [2]),
        (10**7, 2500, 64, [1] * 2500),
        (1000, 1000, 0, [125] * 8),
        (1, 1, 4, [1]),
    ],
)
def test_tasks(records: int, groups: int, workers: int, sizes: list[int]) -> None:
    """Worked by hand: at most 1,000 records, unless a group has more, and at least 8 tasks for each worker."""
    tasks = tasks_of(Grouped(records, groups, ""), workers)
    assert [len(task) for task in tasks] == sizes
    assert [group for task in tasks for group in task] == list(range(groups))


TRIES: "Counter[int]" = Counter()


def failing_twice(_job: Job, groups: Sequence[int]) -> "Counter[str]":
    """A task whose third try is the first one without an error."""
    TRIES.update(groups)
    if TRIES[groups[0]] < 3:
        raise OSError("not yet")
    return Counter({ANSWERED: len(groups)})


def test_a_task_that_fails_is_tried_again(begun: Begun, monkeypatch: pytest.MonkeyPatch) -> None:
    monkeypatch.setattr("olr.running.cluster._answer", failing_twice)
    with Client(
        processes=False, n_workers=1, threads_per_worker=1, dashboard_address=None
    ) as client:
        ended = answer_all(client, begun.job, begun.grouped)
    assert not ended.failed and ended.counts == {ANSWERED: len(begun.groups())}
    assert TRIES == dict.fromkeys(begun.groups(), 3)
