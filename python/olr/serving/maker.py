"""A process that makes GeoJSON, scenes and rows of answers. It knows where the lines of the map came from, and forks a process for each that works: so
they share what was read, each can be killed, and gives all of its memory back. `tasks.py` says what is asked of it.
"""

import gc
import os
import pickle
import resource
import signal
import socket
import sys
import traceback
from io import BufferedRandom
from typing import NoReturn

from olr.asking.ending import end_with, is_left
from olr.errors import ToolError
from olr.matching.rows import Ground
from olr.serving import feature_texts, row_texts, scene_texts
from olr.serving.ground import Grounds
from olr.serving.limits import MIB, MOST_MADE
from olr.serving.tasks import (
    MOST_MESSAGE,
    AroundTask,
    FeaturesTask,
    LinesTask,
    MapVersion,
    SceneTask,
    Task,
)

MOST_MEMORY = 128 * MIB
"""Bytes that one process may take besides what it shares."""
PAGE = resource.getpagesize()


def main(_: list[str]) -> int:
    """Forks a process for each socket that comes, until the server has ended. Answers the status."""
    signal.signal(signal.SIGCHLD, signal.SIG_IGN)
    grounds = Grounds()
    with socket.socket(fileno=sys.stdin.fileno()) as control:
        while True:
            message, descriptors = socket.recv_fds(control, MOST_MESSAGE, 1)[:2]
            if not message:
                return 0
            with socket.socket(fileno=descriptors[0]) as asked:
                _fork(control, asked, grounds, pickle.loads(message))


def _fork(control: socket.socket, asked: socket.socket, grounds: Grounds, map: MapVersion) -> None:
    """Forks a process that makes what is asked for on a socket."""
    ground = grounds.of(map)
    gc.freeze()
    if os.fork() == 0:
        control.close()
        _work(asked, ground)


def _work(asked: socket.socket, ground: Ground) -> NoReturn:
    """Makes what is asked for, until the server has closed the socket."""
    try:
        end_with(asked.fileno())
        _limit(MOST_MEMORY, MOST_MADE)
        while descriptors := socket.recv_fds(asked, 1, 1)[1]:
            asked.send(pickle.dumps(_made(descriptors[0], ground)))
    except ConnectionError:
        pass
    except Exception:
        # What is ended in the middle of something, such as an import, may raise an error of its own.
        if not is_left(asked.fileno()):
            traceback.print_exc()
    finally:
        sys.stderr.flush()
        os._exit(0)


def _limit(memory: int, size: int) -> None:
    """Lets this process take so many bytes of memory more, and write so many to a file."""
    with open("/proc/self/statm", encoding="ascii") as stream:
        there = int(stream.read().split()[5]) * PAGE
    resource.setrlimit(resource.RLIMIT_DATA, (there + memory, there + memory))
    resource.setrlimit(resource.RLIMIT_FSIZE, (size, size))


def _made(descriptor: int, ground: Ground) -> Exception | None:
    """Makes the answer to the task of a file in its place. Answers why there is none."""
    try:
        with open(descriptor, "r+b") as file:
            file.seek(0)
            task = pickle.load(file)
            file.seek(0)
            _make(task, ground, file)
            # Cut off before, its blocks would be written to the disk: ext4 takes that for a file which is replaced.
            file.truncate()
    except MemoryError:
        return MemoryError()
    except (ToolError, OSError) as error:
        return error
    except Exception:
        traceback.print_exc()
        return RuntimeError("an answer wasn't made: the log has more above")
    return None


def _make(task: Task, ground: Ground, file: BufferedRandom) -> None:
    """Writes the answer to a task. Raises `ToolError`, `OSError` and `MemoryError`."""
    if isinstance(task, FeaturesTask):
        feature_texts.write(task, ground, file)
    elif isinstance(task, SceneTask):
        file.write(scene_texts.text_of(task))
    elif isinstance(task, AroundTask):
        file.write(scene_texts.with_surroundings(task))
    elif isinstance(task, LinesTask):
        if task.form == "rows":
            file.write(row_texts.lines_of(task))
        else:
            file.write(feature_texts.lines_of(task.some, ground, task.asked.what))
