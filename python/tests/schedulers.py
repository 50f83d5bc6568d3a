"""Schedulers and workers of Dask that aren't those of a run: its own commands, as processes of their own."""

import json
import os
import signal
import time
from pathlib import Path
from typing import NamedTuple

from forked import Forked
from runs import Runs

HIDDEN = ["--no-dashboard", "--dashboard-address", "127.0.0.1:0"]


class Scheduler:
    """A scheduler, and its workers. They end with the `with` statement."""

    def __init__(self, runs: Runs, program: Path | None = None) -> None:
        """Starts it. Its workers ask a program."""
        self._file, self._local = runs.folder / "scheduler.json", str(runs.folder / "local")
        self._environment = runs.environment(program)
        self.processes = list[Forked]()
        words = ["--host", "127.0.0.1", "--port", "0", *HIDDEN]
        self._start("dask_scheduler", *words, "--scheduler-file", str(self._file))
        while (address := self._found()) is None:
            assert self.processes[0].poll() is None
            time.sleep(0.1)
        self.address = address

    def __enter__(self) -> "Scheduler":
        return self

    def __exit__(self, *_: object) -> None:
        for process in reversed(self.processes):
            process.send_signal(signal.SIGTERM)
            process.wait(60)

    def add_worker(self, threads: int = 1, memory: str = "0") -> None:
        """Starts a worker with so many threads and a limit of its memory, by default without one."""
        words = [self.address, "--local-directory", self._local, *HIDDEN, "--no-nanny"]
        words += ["--nworkers", "1", "--nthreads", str(threads), "--memory-limit", memory]
        self._start("dask_worker", *words)

    def kill(self) -> None:
        """Kills the scheduler alone."""
        self.processes[0].kill()

    def _start(self, command: str, *words: str) -> None:
        """Starts a command of Dask: no fork of this process, where Dask may have had threads, for which a fork would wait for ever."""
        module = f"distributed.cli.{command}"
        self.processes.append(Forked(words, self._environment, Path(os.devnull), module=module))

    def _found(self) -> str | None:
        """The address in the scheduler's file, or None until all of the file is written."""
        try:
            return str(json.loads(self._file.read_text())["address"])
        except (FileNotFoundError, json.JSONDecodeError):
            return None


class Shared(NamedTuple):
    """Workers of Dask that several runs have, each with a program of its own."""

    address: str
    """Of their scheduler."""
    program: Path
    """What they ask: a link."""

    def ask(self, program: Path) -> None:
        """Has them ask another program."""
        new = self.program.with_name("new")
        new.symlink_to(program)
        new.replace(self.program)
