"""One process `olr answer` for threads: records to it, and their lines back, each to the one who asked."""

import os
import subprocess
import threading
from collections import deque
from collections.abc import Sequence
from contextlib import suppress
from fcntl import F_SETPIPE_SZ, fcntl
from pathlib import Path
from queue import SimpleQueue
from typing import IO, NoReturn

from olr.asking.exchange import Exchange, words_of_process
from olr.asking.files import MapFiles, Version
from olr.asking.program import PathLike
from olr.asking.starting import kill_group, start
from olr.errors import ProgramEnded, TimedOut, ToolError
from olr.model.objects import RawLine

PIECE_BYTES = 1 << 20
"""So much is read at a time."""
SECONDS_TO_END = 10.0
Box = SimpleQueue[RawLine | ToolError]
"""Where the lines of somebody's records come, in their order. An error is the last that comes."""


class Process:
    """A process `olr answer` on the map of some files.

    It has two threads: one starts it and reads its lines, the other one writes what it is asked. So nobody who asks waits for a pipe, or has
    anything that an interrupt, the garbage collector or another thread could spoil: whoever wants no more lines leaves the box.
    """

    def __init__(self, program: Path, files: MapFiles, confidence: PathLike | None = None) -> None:
        """It is started by `start`. Places have probabilities by the file of a confidence."""
        self.error: ToolError | None = None
        """Why it has ended, or is ending."""
        self._program, self._files, self._confidence = program, files, confidence
        self._exchange = Exchange(program)
        self._asked: SimpleQueue[tuple[Sequence[bytes], Box] | None] = SimpleQueue()
        """What isn't written yet, and None behind the last of it."""
        self._boxes: deque[Box] = deque()
        """One for each record that has no line yet, or isn't written yet."""
        self._process: "subprocess.Popen[bytes] | None" = None
        self._thread = threading.Thread(target=self._run, name="olr answer", daemon=True)

    def start(self) -> None:
        """Starts it, unless it was started before. Whoever asks it hears why it can't be started."""
        try:
            if self._thread.ident is None:
                self._thread.start()
        except BaseException:
            self.fail(ProgramEnded("the start was interrupted: ask again"))
            raise

    def ask(self, texts: Sequence[bytes], box: Box) -> None:
        """Hands over records, whose lines come into a box. It waits for nothing. Raises the error with which the process has ended."""
        self._asked.put((texts, box))
        if self.error is not None:
            raise self.error

    def answered(self) -> int:
        """How many records have their line."""
        return self._exchange.answered

    def unanswered(self) -> int:
        """How many others were written, whether or not somebody waits for them."""
        return self._exchange.asked - self._exchange.answered

    def fails_at_one(self, error: ToolError) -> bool:
        """Whether an error of one of its records is of nothing else: it was asked nothing more, and had answered nothing before it ended."""
        return self.unanswered() <= 1 and (isinstance(error, TimedOut) or not self.answered())

    def fail(self, error: ToolError) -> None:
        """Ends the process for an error, which comes into all boxes. It waits for nothing, so the garbage collector may call it too."""
        if self.error is None:
            self.error = error
        if self._process is not None:
            kill_group(self._process)

    def join(self) -> None:
        """Waits for the end of a process that has failed."""
        if self._thread.ident is not None:
            self._thread.join(SECONDS_TO_END)

    def _run(self) -> None:
        """What the first thread does."""
        try:
            self._speak()
        except Exception as error:
            other = ProgramEnded(f"{self._program} can't be asked: {error}")
            self.fail(error if isinstance(error, ToolError) else other)
        assert self.error is not None
        for box in self._boxes:
            box.put(self.error)
        while not self._asked.empty():
            if (asked := self._asked.get()) is not None:
                asked[1].put(self.error)

    def _speak(self) -> NoReturn:
        """Starts the process, and asks it until it has ended. Raises `ToolError`."""
        version = self._files.found()
        words, pipe = words_of_process(self._files, self._confidence), subprocess.PIPE
        pipes = {"stdin": pipe, "stdout": pipe, "stderr": pipe}
        with start(self._program, words, pass_fds=self._files.descriptors, **pipes) as process:
            self._process = process
            assert process.stdout is not None
            with suppress(OSError):
                # The program goes on while Python is at something else: usually a pipe holds 64 KiB.
                fcntl(process.stdout.fileno(), F_SETPIPE_SZ, PIECE_BYTES)
            writer = threading.Thread(target=self._write, args=(process.stdin,), daemon=True)
            try:
                writer.start()
                if self.error is not None:
                    raise self.error
                self._read(process, version)
            finally:
                kill_group(process)
                self._asked.put(None)
                writer.join()

    def _write(self, stream: IO[bytes]) -> None:
        """What the second thread does."""
        with suppress(OSError), stream:
            while (asked := self._asked.get()) is not None:
                texts, box = asked
                self._boxes.extend([box] * len(texts))
                stream.write(self._exchange.ask(texts))
                stream.flush()

    def _read(self, process: "subprocess.Popen[bytes]", version: Version) -> NoReturn:
        """Gives lines to those who asked. At the first one it sees that the files are those that were found before the process read them. Raises
        the error with which the process has ended, and `MapRefused`."""
        assert process.stdout is not None and process.stderr is not None
        while data := os.read(process.stdout.fileno(), PIECE_BYTES):
            for line in self._exchange.receive(data):
                if line.record == 1:
                    self._files.keep(version)
                self._boxes.popleft().put(line)
        with suppress(subprocess.TimeoutExpired):
            process.wait(SECONDS_TO_END)
        kill_group(process)
        # What the process started may still have the pipe.
        os.set_blocking(process.stderr.fileno(), False)
        raise self._exchange.why_ended(process.wait(), process.stderr.read() or b"")
