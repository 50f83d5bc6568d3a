"""The command `olr-tools`, or one of Dask, as a process that starts at once: a fork of one that has the modules already. Their imports take a
second of a new one. How much memory a fork has says nothing."""

import gc
import importlib
import logging
import os
import pickle
import signal
import socket
import subprocess
import sys
import tempfile
import time
import traceback
import warnings
from collections.abc import Callable, Mapping, Sequence
from multiprocessing import resource_tracker
from pathlib import Path
from typing import NoReturn

COMMANDS = ("olr.commands.run", "olr.commands.serve")
"""Modules that the template has."""
OF_DASK = ("distributed.cli.dask_scheduler", "distributed.cli.dask_worker")
"""Modules with commands of Dask. Once one was asked for, the template has them and those that their processes and runs import."""
WITH_DASK = (*COMMANDS, *OF_DASK, "olr.running.cluster", "pandas")
SETTINGS_OF_DASK = {
    "DASK_DISTRIBUTED__SCHEDULER__HTTP__ROUTES": "[]",
    "DASK_DISTRIBUTED__WORKER__HTTP__ROUTES": "[]",
    "DASK_DISTRIBUTED__WORKER__PROFILE__ENABLED": "False",
}
"""Without pages, and without a thread that looks every 10 ms what a worker does."""
MOST_MESSAGE = 1 << 16
"""Bytes of what the template is told."""


class Forked:
    """A process, with what is asked of one of `subprocess`."""

    def __init__(
        self,
        words: Sequence[str],
        environment: Mapping[str, str],
        errors: Path,
        command: Callable[[], object] | None = None,
        module: str = "olr.__main__",
    ) -> None:
        """A fork of the template that runs `olr-tools`, or the command of another module; or one of this process that runs a command, and has
        what tests changed."""
        read, write = os.pipe()
        self.words, self.errors = words, errors
        self.returncode: int | None = None
        self._wait = template.wait if command is None else _wait
        if command is None:
            self.pid = template.fork(module, words, environment, errors, write)
        else:
            self.pid = os.fork()
            if self.pid == 0:
                _run(command, words, environment, write, errors)
        os.close(write)
        self.stdout = os.fdopen(read)

    def poll(self) -> int | None:
        """Its status, if it has ended."""
        if self.returncode is None:
            self.returncode = self._wait(self.pid)
        return self.returncode

    def wait(self, seconds: float = 600) -> int:
        """Its status, once it has ended."""
        end = time.monotonic() + seconds
        while (status := self.poll()) is None:
            if time.monotonic() > end:
                raise subprocess.TimeoutExpired(self.words, seconds)
            time.sleep(0.01)
        return status

    def kill(self) -> None:
        """Kills it, if it hasn't ended."""
        self.send_signal(signal.SIGKILL)

    def send_signal(self, number: int) -> None:
        """Sends it a signal, if it hasn't ended."""
        if self.poll() is None:
            os.kill(self.pid, number)

    def __enter__(self) -> "Forked":
        return self

    def __exit__(self, *_: object) -> None:
        self.stdout.close()
        self.wait()


class Template:
    """A process that has little but the modules of commands, and is forked in place of this one: each page of memory to which either process
    writes behind a fork is copied, and this one writes to most of what it has."""

    def start(self) -> None:
        """Forks it, while this process is small. It ends with it."""
        self._asked, theirs = socket.socketpair(socket.AF_UNIX, socket.SOCK_SEQPACKET)
        self._pid = os.fork()
        if self._pid == 0:
            self._asked.close()
            _fork_for(theirs)
        theirs.close()

    def end(self) -> None:
        """Ends it."""
        self._asked.close()
        os.waitpid(self._pid, 0)

    def fork(
        self,
        module: str,
        words: Sequence[str],
        environment: Mapping[str, str],
        errors: Path,
        output: int,
    ) -> int:
        """Forks a process that runs the command of a module here. Answers its id."""
        message = pickle.dumps((module, os.getcwd(), words, dict(environment), errors))
        socket.send_fds(self._asked, [message], [output])
        return int(self._asked.recv(MOST_MESSAGE))

    def wait(self, pid: int) -> int | None:
        """The status of a process that it forked, if that has ended."""
        self._asked.send(str(pid).encode())
        status = self._asked.recv(MOST_MESSAGE).decode()
        return int(status) if status != "None" else None


template = Template()
"""Of all tests."""


def _wait(pid: int) -> int | None:
    """The status of a process that this one has forked, if it has ended."""
    ended, status = os.waitpid(pid, os.WNOHANG)
    return os.waitstatus_to_exitcode(status) if ended else None


def _fork_for(asked: socket.socket) -> NoReturn:
    """What the template does, until the process of the tests has ended."""
    signal.signal(signal.SIGINT, signal.SIG_IGN)
    os.environ.update(SETTINGS_OF_DASK)
    while True:
        message, descriptors, *_ = socket.recv_fds(asked, MOST_MESSAGE, 1)
        if not message:
            os._exit(0)
        if not descriptors:
            asked.send(str(_wait(int(message))).encode())
            continue
        module, folder, words, environment, errors = pickle.loads(message)
        for name in WITH_DASK if module in OF_DASK else COMMANDS:
            importlib.import_module(name)
        command = importlib.import_module(module).main
        gc.freeze()
        pid = os.fork()
        if pid == 0:
            os.chdir(folder)
            _run(command, words, environment, descriptors[0], errors)
        os.close(descriptors[0])
        asked.send(str(pid).encode())


def _run(
    command: Callable[[], object],
    words: Sequence[str],
    environment: Mapping[str, str],
    output: int,
    errors: Path,
) -> NoReturn:
    """Runs a command in a process that was forked, with a session of its own. It has no files of the other one, and nothing of its tests."""
    status = 70
    try:
        os.setsid()
        # What a shell starts in the background isn't interrupted.
        signal.signal(signal.SIGINT, signal.default_int_handler)
        # What the other process left isn't deleted here: its descriptors are those of other files now.
        gc.freeze()
        for number, file in enumerate((os.open(os.devnull, os.O_RDONLY), output)):
            os.dup2(file, number)
        os.dup2(os.open(errors, os.O_WRONLY | os.O_CREAT | os.O_TRUNC), 2)
        os.closerange(3, os.sysconf("SC_OPEN_MAX"))
        sys.stdin, sys.stdout = open(0, closefd=False), open(1, "w", closefd=False)
        sys.stderr = open(2, "w", buffering=1, closefd=False)
        logging.getLogger().handlers.clear()
        for name in list(logging.root.manager.loggerDict):
            for handler in logging.getLogger(name).handlers:
                if isinstance(handler, logging.StreamHandler):
                    handler.stream = sys.stderr
        # Warnings are said as by a process without tests, and what other processes of Python share is its own.
        importlib.reload(warnings)
        warnings.resetwarnings()
        for kind in (DeprecationWarning, PendingDeprecationWarning, ImportWarning, ResourceWarning):
            warnings.simplefilter("ignore", kind)
        importlib.reload(resource_tracker)
        os.environ.clear()
        os.environ.update(environment)
        tempfile.tempdir = None
        sys.argv[1:] = words
        command()
    except SystemExit as ended:
        status = ended.code if isinstance(ended.code, int) else 1
    except BaseException:
        traceback.print_exc()
    finally:
        sys.stdout.flush()
        _keep_measured()
        os._exit(status)


def _keep_measured() -> None:
    """Keeps which lines were run, where `measure.py` asks for that."""
    coverage = sys.modules.get("coverage")
    measuring = None if coverage is None else coverage.Coverage.current()
    if measuring is not None:
        measuring.stop()
        measuring.save()
