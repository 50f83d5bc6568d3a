"""How far long work is: a bar on a terminal, and elsewhere a line every ten seconds. Where it doesn't go on, what it waits for."""

import sys
import threading
import time
from collections.abc import Callable, Generator, Iterable, Iterator
from contextlib import contextmanager, suppress
from queue import Empty, SimpleQueue
from typing import NamedTuple, TypeVar

from olr.signals import kept_signals

SECONDS_OF_BAR = 0.1
"""The bar moves no more often."""
SECONDS_OF_LINES = 10.0
"""Work that takes less has no line."""
SECONDS_OF_LOOKS = 1.0
"""So often it is looked whether something is to be shown while no step ends."""
SECONDS_OF_WAITING = 60.0
"""Where no step ended for so long it is said what is waited for, and again after as long."""

Clock = Callable[[], float]
"""Seconds since some moment."""
Advance = Callable[[int], None]
"""Is called with the number of steps that were done since the last call, which may be 0."""
Waiting = Callable[[], str]
"""What work waits for. It is called by another thread, and may take some seconds; it raises nothing."""
Item = TypeVar("Item")


class _Shown(NamedTuple):
    """Where it is shown how far work is."""

    show: Callable[[int], None]
    """Shows that so many steps are done."""
    say: Callable[[str], None]
    """Shows a line that stays."""


@contextmanager
def progress(
    what: str,
    total: int | None = None,
    clock: Clock = time.monotonic,
    waiting: Waiting | None = None,
) -> Iterator[Advance]:
    """Shows how far a piece of work is, on standard error. Gives the function to call when steps were done. Without a total it
    only shows how many there were. Where no step ends for a minute, it is said what `waiting` answers.
    """
    if sys.stderr.isatty():
        with _bar(what, total) as shown, _Pace(shown, SECONDS_OF_BAR, clock, waiting) as advance:
            yield advance
    else:
        with _Pace(_lines(what, total), SECONDS_OF_LINES, clock, waiting) as advance:
            yield advance


def watched(
    items: Iterable[Item],
    what: str,
    total: int | None = None,
    waiting: Waiting | None = None,
) -> Generator[Item, None, None]:
    """Items, while it is shown how many of them are done."""
    with progress(what, total, waiting=waiting) as advance:
        for item in items:
            yield item
            advance(1)


@contextmanager
def _bar(what: str, total: int | None) -> Iterator[_Shown]:
    """A bar, which is gone at the end, and lines above it."""
    # A terminal alone needs them: olr.Map is there sooner.
    from rich.console import Console
    from rich.progress import BarColumn, MofNCompleteColumn, Progress, TextColumn, TimeElapsedColumn

    columns = (TextColumn("{task.description}"), BarColumn(), MofNCompleteColumn())
    console = Console(stderr=True)
    with Progress(*columns, TimeElapsedColumn(), console=console, transient=True) as bar:
        task = bar.add_task(what, total=total)
        yield _Shown(
            lambda done: bar.update(task, completed=done),
            lambda line: console.print(line, markup=False, highlight=False, soft_wrap=True),
        )


def _lines(what: str, total: int | None) -> _Shown:
    """Lines of standard error."""
    of_total = "" if total is None else f" of {total:,}"

    def say(line: str) -> None:
        print(line, file=sys.stderr, flush=True)

    return _Shown(lambda done: say(f"{what}: {done:,}{of_total}"), say)


class _Pace:
    """Adds steps up, and shows how many are done if that was last shown some seconds ago. A thread looks too whether it was: one step may
    take long. It says what is waited for."""

    def __init__(
        self, shown: _Shown, seconds: float, clock: Clock, waiting: Waiting | None
    ) -> None:
        self._shown, self._seconds, self._clock, self._waiting = shown, seconds, clock, waiting
        self._done = 0
        self._at = self._moved = self._said = clock()
        """When it was last shown how many steps are done; when one ended; when it was said what is waited for, or one ended."""
        self._showing = threading.Lock()
        self._ended: SimpleQueue[None] = SimpleQueue()
        self._thread = threading.Thread(target=self._look, daemon=True)

    def __enter__(self) -> Advance:
        with kept_signals():
            self._thread.start()
        return self._advance

    def __exit__(self, kind: type[BaseException] | None, *_: object) -> None:
        self._ended.put(None)
        # The garbage collector may close a generator in any thread, this one too: nobody waits then.
        if kind is not GeneratorExit:
            self._thread.join()

    def _advance(self, steps: int) -> None:
        """Adds steps."""
        with self._showing:
            self._done += steps
            now = self._clock()
            if steps:
                self._moved = self._said = now
            self._show(now)

    def _look(self) -> None:
        """What the thread does."""
        while True:
            with suppress(Empty):
                return self._ended.get(timeout=SECONDS_OF_LOOKS)
            with self._showing:
                now = self._clock()
                self._show(now)
                is_long = now - self._said >= SECONDS_OF_WAITING
                seconds = now - self._moved
            if self._waiting is not None and is_long:
                line = f"nothing was finished for {seconds:.0f} seconds: {self._waiting()}"
                with self._showing:
                    self._said = now
                    self._shown.say(line)

    def _show(self, now: float) -> None:
        """Shows how many steps are done, if it is time."""
        if now - self._at >= self._seconds:
            self._at = now
            self._shown.show(self._done)
