"""Signals that end a command."""

import signal
import threading
from collections.abc import Iterator
from contextlib import contextmanager

ENDING = signal.SIGINT, signal.SIGTERM, signal.SIGHUP


@contextmanager
def kept_signals() -> Iterator[None]:
    """Keeps them until the end, where what must not stay half open or half closed is open or closed. Threads and processes that begin
    meanwhile don't get them at all: the main thread does."""
    with _noted_signals():
        before = signal.pthread_sigmask(signal.SIG_BLOCK, ENDING)
        try:
            yield
        finally:
            signal.pthread_sigmask(signal.SIG_SETMASK, before)


@contextmanager
def _noted_signals() -> Iterator[None]:
    """Does nothing but note them until the end. Then they come again. Those that one thread doesn't take go to another one, if there is any,
    and Python handles them in the main thread all the same."""
    if threading.current_thread() is not threading.main_thread():
        yield
        return
    came = list[int]()
    handlers = {one: signal.getsignal(one) for one in ENDING}
    try:
        for one in ENDING:
            signal.signal(one, lambda number, _: came.append(number))
        yield
    finally:
        for one, handler in handlers.items():
            signal.signal(one, handler)
        for number in came:
            signal.raise_signal(number)
