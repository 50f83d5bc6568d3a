"""The processes that answer questions about the map of some files, for all threads that ask."""

import os
import threading
from collections import deque
from collections.abc import Generator, Iterable
from itertools import islice
from queue import Empty
from weakref import finalize

from olr.asking.files import MapFiles
from olr.asking.patience import PATIENCE
from olr.asking.program import PathLike, find_program
from olr.asking.threaded import Box, Process
from olr.errors import TimedOut, ToolError, closed_error, forked_error
from olr.model.objects import RawLine

AHEAD = 256
"""So many records are handed over before the first of their lines is taken, if nothing else is said."""
Line = RawLine | ToolError
"""The line of a record, or why it has none."""


class Processes:
    """Processes `olr answer`, each of which answers whatever is asked. One is started when it is needed. They end by `close`, with this object,
    or with Python itself."""

    def __init__(
        self,
        files: MapFiles,
        program: PathLike | None = None,
        patience: float | None = PATIENCE,
        most: int = 1,
        confidence: PathLike | None = None,
    ) -> None:
        """Those of the map of these files, `most` of them for all who ask. `patience` is how many seconds somebody waits for a line; None for
        as long as it takes. Places have probabilities by the file of a confidence, if there is one.
        """
        self.files, self._program, self._patience, self._most = files, program, patience, most
        self._confidence = confidence
        self._there: list[Process] = []
        self._lock = threading.Lock()
        self._closed = False
        self._owner = os.getpid()
        self._apart: list[Processes] = []
        finalize(self, _leave_all, self._there, self._owner)

    def close(self) -> None:
        """Ends the processes, and waits for their end: whoever waits for one gets an error."""
        if os.getpid() == self._owner:
            with self._lock:
                self._leave()
                for process in self._there:
                    process.join()

    def lines(
        self,
        texts: Iterable[bytes],
        ahead: int = AHEAD,
        failures: tuple[type[ToolError], ...] = (TimedOut,),
    ) -> Generator[Line, None, None]:
        """The lines of records, in their order. So many of them are taken `ahead` of the first line.

        Where a process fails in one of these ways, the records that have no line are asked again, one by one, by a process of their own: one
        at which that fails too has the error in place of its line. So whoever waits behind slow records of others does so no longer than the
        patience. Raises `ToolError` for other failures.
        """
        left, waiting = iter(texts), deque[bytes]()
        process: Process | None = None
        while True:
            if os.getpid() != self._owner:
                raise forked_error()
            if len(waiting) <= ahead // 2:
                waiting.extend(islice(left, ahead - len(waiting)))
            if not waiting:
                return
            if process is None:
                process, box, handed_over = self._process(), Box(), 0
            try:
                if handed_over < len(waiting):
                    process.ask(list(islice(waiting, handed_over, None)), box)
                    handed_over = len(waiting)
                line: Line = self._next(process, box)
            except failures as error:
                if len(waiting) > 1 or not process.fails_at_one(error):
                    yield from self._one_by_one(waiting, failures)
                    process = None
                    continue
                line, process = error, None
            waiting.popleft()
            handed_over -= 1
            yield line

    def _one_by_one(
        self, waiting: deque[bytes], failures: tuple[type[ToolError], ...]
    ) -> Generator[Line, None, None]:
        """The lines of records, each of which is asked when the one before is answered, by a process that nobody else asks."""
        apart = Processes(self.files, self._program, self._patience, confidence=self._confidence)
        self._apart.append(apart)
        try:
            if self._closed:
                raise closed_error()
            yield from apart.lines((waiting.popleft() for _ in range(len(waiting))), 1, failures)
        finally:
            apart._leave()
            self._apart.remove(apart)

    def _next(self, process: Process, box: Box) -> RawLine:
        """The next line in a box, which is waited for as long as the patience: whatever else the process writes meanwhile doesn't make that
        longer. Raises `TimedOut`, and ends the process if it has answered nothing at all; and the error with which it ended.
        """
        answered = process.answered()
        try:
            line = box.get(timeout=self._patience)
        except Empty:
            waited = f"olr answered nothing for {self._patience:g} seconds after {answered} answers"
            error = TimedOut(f"{waited}: ask again, a new process is started")
            if process.answered() == answered:
                process.fail(error)
            raise error from None
        if isinstance(line, ToolError):
            raise line
        return line

    def _process(self) -> Process:
        """The process that has least to do, or a new one. Raises `ToolError`."""
        with self._lock:
            if self._closed:
                raise closed_error()
            self._there[:] = [one for one in self._there if one.error is None]
            least = min(self._there, key=Process.unanswered, default=None)
            if least is None or (least.unanswered() and len(self._there) < self._most):
                least = Process(find_program(self._program), self.files, self._confidence)
                self._there.append(least)
            least.start()
            return least

    def _leave(self) -> None:
        """As `close`, but it waits for nothing: the garbage collector may call it at any moment. The threads of the processes do the rest."""
        self._closed = True
        _leave_all(self._there, self._owner)
        for apart in self._apart:
            apart._leave()


def _leave_all(there: list[Process], owner: int) -> None:
    """Ends processes of the one that owns them, and waits for nothing."""
    if os.getpid() == owner:
        for process in there:
            process.fail(closed_error())
