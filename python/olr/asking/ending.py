"""How a process of Python's ends with whoever asks it."""

import fcntl
import os
import select
import signal
import sys


def is_left(asked: int) -> bool:
    """Whether the other end of a socket is closed."""
    watched = select.poll()
    watched.register(asked, 0)
    return bool(watched.poll(0))


def end_with(asked: int) -> None:
    """Ends this process by `SystemExit` once the other end of a socket is closed: what it has begun in files is deleted, and what it has
    started is ended."""

    def look(*_: object) -> None:
        if is_left(asked):
            sys.exit()

    signal.signal(signal.SIGIO, look)
    fcntl.fcntl(asked, fcntl.F_SETOWN, os.getpid())
    fcntl.fcntl(asked, fcntl.F_SETFL, fcntl.fcntl(asked, fcntl.F_GETFL) | os.O_ASYNC)
    look()
