"""Folders that are there for a while are never left behind by a signal that ends a command."""

import os
import pytest
import signal
import tempfile
import threading
import time
from collections.abc import Iterator
from pathlib import Path

from olr.outputs import write_whole
from olr.signals import ENDING
from olr.temporary import temporary_folder


class Ended(Exception):
    """A signal came."""


@pytest.fixture(params=ENDING)
def sign(request: pytest.FixtureRequest) -> Iterator[signal.Signals]:
    """A signal that ends a command: here it raises an error, wherever the process is."""

    def end(*_: object) -> None:
        raise Ended

    sign: signal.Signals = request.param
    before = signal.signal(sign, end)
    yield sign
    signal.signal(sign, before)


def come(sign: signal.Signals) -> None:
    """The signal comes, and another thread has time to take it."""
    os.kill(os.getpid(), sign)
    time.sleep(0.01)


@pytest.fixture(params=[False, True])
def other_thread(request: pytest.FixtureRequest) -> Iterator[None]:
    """Perhaps another thread, to which the system gives signals that this one keeps: libraries have some."""
    ended = threading.Event()
    thread = threading.Thread(target=ended.wait)
    if request.param:
        thread.start()
    yield
    ended.set()
    if request.param:
        thread.join()


@pytest.mark.usefixtures("other_thread")
def test_a_signal_as_it_is_made(
    sign: signal.Signals, tmp_path: Path, monkeypatch: pytest.MonkeyPatch
) -> None:
    made = tempfile.mkdtemp

    def make(*given: str) -> str:
        folder = made(*given)
        come(sign)
        return folder

    monkeypatch.setattr(tempfile, "mkdtemp", make)
    with pytest.raises(Ended):
        write_whole(tmp_path / "file", b"text")
    assert os.listdir(tmp_path) == []


def test_a_signal_while_it_is_there(sign: signal.Signals, tmp_path: Path) -> None:
    with pytest.raises(Ended):
        with temporary_folder("some.", tmp_path) as folder:
            assert folder.parent == tmp_path and folder.name.startswith("some.")
            (folder / "file").touch()
            come(sign)
    assert os.listdir(tmp_path) == []


@pytest.mark.usefixtures("other_thread")
def test_a_signal_as_it_is_deleted(
    sign: signal.Signals, tmp_path: Path, monkeypatch: pytest.MonkeyPatch
) -> None:
    deleted = os.unlink

    def delete(*given: str, dir_fd: int | None = None) -> None:
        deleted(*given, dir_fd=dir_fd)
        come(sign)

    with pytest.raises(Ended):
        with temporary_folder("some.", tmp_path) as folder:
            (folder / "file").touch()
            monkeypatch.setattr(os, "unlink", delete)
    assert os.listdir(tmp_path) == []
