"""Questions in the midst of which the garbage collector closes generators, or a signal comes: the next ones have their answers."""

import os
import pytest
import subprocess
import sys
from collections.abc import Callable
from pathlib import Path
from types import FrameType

from conftest import REFERENCE, TOP, Program
from olr.asking import exchange, processes, threaded
from olr.regions.making import make_store_of_folder
from test_client_failures import ROADWORKS, nothing_left, town

__all__ = ["nothing_left"]

SECONDS = 60
"""A script that waits for itself is killed then."""
COLLECTED = """
import gc, olr, pandas, sys, threading, time
import olr.matching.chunks as chunks
from pkgutil import resolve_name

gc.disable()
first, second = "CwVF/yN2yRpnBAFUAAgbpwYBAf9kK0Fa", "CwVGnSN2zhvHCgDX/tIzAw=="


def leave(item):
    # Nobody has it any more, and the garbage collector alone finds that.
    there = [item]
    there.append(there)


def collect_at(place):
    owner, _, name = place.rpartition(".")
    real = resolve_name(place)

    def collect(*words):
        assert gc.collect()
        setattr(resolve_name(owner), name, real)
        return real(*words)

    setattr(resolve_name(owner), name, collect)


def interrupt(*_):
    raise KeyboardInterrupt
"""
ANSWERS = """
town = olr.Map("examples")
expected = town.match(second, page=9)
answers = town.matches([first] * 600, page=7)
assert next(answers).matchings
leave(answers)
del answers
collect_at(sys.argv[1])
assert town.match(second, page=8) == expected
town.close()
"""
LOCATED = """
town = olr.Map("examples")
expected = olr.locate(pandas.Series([second] * 3), map=town)
real, chunks.rows_of = chunks.rows_of, interrupt
try:
    olr.locate(pandas.Series([first] * 600), map=town)
except KeyboardInterrupt as error:
    leave(error)
chunks.rows_of = real
collect_at(sys.argv[1])
assert olr.locate(pandas.Series([second] * 3), map=town).equals(expected)
town.close()
"""
MAP = """
town = olr.Map(sys.argv[1])
assert town.match(first)
leave(town)
del town
# threading.enumerate makes lists while it has this lock, which a thread needs to end.
with threading._active_limbo_lock:
    assert gc.collect()
while threading.active_count() > 1:
    time.sleep(0.01)
"""


def run(program: Program, script: str, word: object) -> None:
    """Runs a script in a process of its own, which is killed where it hangs. It has to close all files that it opens, but for databases,
    which end with themselves."""
    environment = os.environ | {"OLR_PROGRAM": str(program.path), "PYTHONPATH": f"{TOP}/python"}
    warnings = ("-W", "error::ResourceWarning", "-W", "ignore:unclosed database:ResourceWarning")
    command = [sys.executable, *warnings, "-c", COLLECTED + script, str(word)]
    ended = subprocess.run(
        command, env=environment, cwd=TOP, timeout=SECONDS, capture_output=True, text=True
    )
    assert (ended.returncode, ended.stderr) == (0, "")


@pytest.mark.parametrize(
    ("left", "place"),
    [
        (ANSWERS, "threaded.os.read"),
        (ANSWERS, "processes.Process.unanswered"),
        (LOCATED, "threaded.os.read"),
    ],
    ids=["amid an answer", "amid a start", "of olr.locate"],
)
def test_generators_that_the_garbage_collector_closes(
    left: str, place: str, program: Program
) -> None:
    """It may do so in a thread that is amid a question, or has a lock of the map."""
    run(program, left, f"olr.asking.{place}")


@pytest.mark.parametrize("is_store", [False, True])
def test_maps_that_the_garbage_collector_ends(
    is_store: bool, program: Program, tmp_path: Path
) -> None:
    """It waits for no thread."""
    folder = TOP / "examples"
    if is_store:
        make_store_of_folder(folder, tmp_path / "town.gpkg")
    run(program, MAP, tmp_path / "town.gpkg" if is_store else folder)


class Interrupt:
    """An interrupt at one of the moments at which Python looks for signals while it asks and reads answers: where a function begins, and where
    a call of one in C has ended."""

    def __init__(self, at: int) -> None:
        self._left = at

    def __call__(self, frame: FrameType, event: str, _: object) -> None:
        """Raises it: a function that profiles."""
        files = threaded.__file__, exchange.__file__, processes.__file__
        if frame.f_code.co_filename in files and event in ("call", "c_return"):
            self._left -= 1
            if self._left == 0:
                raise KeyboardInterrupt

    def comes(self, call: Callable[[], object]) -> bool:
        """Whether it comes in a call."""
        sys.setprofile(self)
        try:
            call()
        except KeyboardInterrupt:
            return True
        finally:
            sys.setprofile(None)
        return False


@pytest.mark.parametrize("texts", [[REFERENCE], [REFERENCE, ROADWORKS, REFERENCE]])
def test_an_interrupt_at_each_moment(texts: list[str], program: Program) -> None:
    """What was read by then isn't taken for an answer to the next question."""
    moments = 0
    with town(program) as asked:
        expected = asked.match(ROADWORKS)
        while Interrupt(moments + 1).comes(lambda: list(asked.matches(texts))):
            moments += 1
            assert asked.match(ROADWORKS) == expected
    assert moments > 30
