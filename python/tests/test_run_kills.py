"""Workers and whole runs that are killed at drawn moments, twenty of each: nothing is lost, and nothing is there twice.

They are processes of their own, forked from the test, which end themselves by SIGKILL when they are about to use the system for the
n-th time: to open, move, make or delete a file, or to start the program. So a seed draws the same moments on each machine.
"""

import gc
import os
import pytest
import random
import shutil
import signal
import sys
import time
from collections.abc import Callable
from functools import partial
from pathlib import Path

from conftest import OF_PROGRAM, Program
from olr.running.parts import NotWhole
from olr.tools import run as olr_tools
from runs import Begun, Town, lines_of_batch

KILLS = 20
USES = {"open", "os.rename", "os.mkdir", "os.remove", "os.rmdir", "subprocess.Popen"}
"""Events of Python's audit: what moments are counted by."""

pytestmark = pytest.mark.usefixtures("here")


class Doomed:
    """A process that is killed at a moment, unless it has ended before."""

    def __init__(self, act: Callable[[], int], moment: int) -> None:
        self.process = os.fork()
        if self.process:
            return
        gc.disable()  # It would copy what the processes share.
        left = moment

        def count(event: str, _: object) -> None:
            nonlocal left
            if event in USES:
                left -= 1
                if not left:
                    os.kill(os.getpid(), signal.SIGKILL)

        status = 99
        try:
            sys.addaudithook(count)
            status = act()
        except BaseException as error:
            os.write(2, f"{error!r}\n".encode())
        finally:
            os._exit(status)

    def is_killed(self) -> bool:
        """Waits for its end, and says whether it was killed. It ended well if not."""
        until = time.monotonic() + 600
        while time.monotonic() < until:
            process, status = os.waitpid(self.process, os.WNOHANG)
            if process:
                ended = os.waitstatus_to_exitcode(status)
                assert ended in (0, -signal.SIGKILL)
                return ended < 0
            time.sleep(0.001)
        os.kill(self.process, signal.SIGKILL)
        raise AssertionError("it doesn't end")


@pytest.fixture
def messages(town: Town, tmp_path: Path) -> Path:
    """Some of the town's messages, with all records that have no answer."""
    file = tmp_path / "messages.txt"
    file.write_bytes(b"\n".join(town.messages.read_bytes().split(b"\n")[:44]))
    return file


def test_workers_are_killed(town: Town, program: Program, messages: Path, tmp_path: Path) -> None:
    """Two at a time have the same groups in another order, one by one or three together, as where one was believed dead."""
    draw = random.Random(7)
    expected = lines_of_batch(program, town.folder, "match", messages)
    begun = Begun(town, program, tmp_path / "run", messages, per_group=9)
    kills = ends = found = 0
    while kills < KILLS:
        pair = []
        for together in (1, 3):
            order = draw.sample(begun.groups(), len(begun.groups()))
            answer = partial(begun.answer, order, together=together)
            pair.append(Doomed(lambda: answer() * 0, draw.randint(1, 160)))
        killed = sum([one.is_killed() for one in pair])
        kills += killed
        for group in begun.groups():
            try:
                lines = list(begun.folder.lines(begun.question, begun.grouped, group))
                assert lines and set(lines) <= set(expected.splitlines(keepends=True))
                found += 1
            except NotWhole:
                pass
        if killed < 2:
            assert begun.joined() == expected
            ends += 1
            for name in ("parts", "facts"):
                shutil.rmtree(tmp_path / "run" / name)
                (tmp_path / "run" / name).mkdir()
    assert ends and found > 10
    begun.answer(begun.groups())
    assert begun.joined() == expected


def test_runs_are_killed(town: Town, program: Program, messages: Path, tmp_path: Path) -> None:
    """While they write groups, answer and join. The next one goes on, until one ends well; then another run begins."""
    draw = random.Random(8)
    expected = lines_of_batch(program, town.folder, "match", messages)
    out, joined = tmp_path / "run", tmp_path / "joined"
    words = ["run", messages, "--store", town.store, "--out", out, "--per-group", 9]
    words += [*OF_PROGRAM, "--join", joined, "--force"]
    kills = ends = begun = 0
    while kills < KILLS or not ends:
        again = [*map(str, words), *(["--resume"] if out.exists() else [])]
        if Doomed(lambda: olr_tools(again), draw.randint(1, 400)).is_killed():
            kills += 1
            begun += (out / "run.json").exists()
            assert not joined.exists() or joined.read_bytes() == expected
        else:
            ends += 1
            assert joined.read_bytes() == expected
            assert sorted(os.listdir(out)) == ["facts", "groups", "parts", "run.json"]
            assert not any(name[0] == "." for _, names, _ in os.walk(out) for name in names)
            shutil.rmtree(out)
            joined.unlink()
    assert ends and begun > 10
