"""What the server writes on standard error: a line for each thing, and of what one client makes it repeat a few lines a minute."""

import asyncio
import logging
import sys
import time
from collections.abc import Hashable
from datetime import datetime
from typing import NamedTuple, TextIO

from olr.progress import Clock
from olr.serving.uvicorn_parts import LOG

MOST_LINES = 30
"""Lines of one cause in a minute. The others are counted."""
MOST_CAUSES = 1000
"""Causes that are told apart. All others are one."""
SECONDS = 60.0
FORMAT = "olr-tools: %(message)s"
REQUESTS = logging.getLogger("olr.serving.requests")
Alike = tuple[str, str, str, int]
"""A client, a method, an address and a status: what requests have in common of which so many are written."""


class _Form(logging.Formatter):
    """A line with the time and its zone, as ISO 8601 has them. Only a defect of the server has more lines."""

    def formatTime(self, record: logging.LogRecord, datefmt: str | None = None) -> str:
        """The time of a record."""
        return datetime.fromtimestamp(record.created).astimezone().isoformat("T", "milliseconds")

    def formatMessage(self, record: logging.LogRecord) -> str:
        """The line."""
        return " ".join(super().formatMessage(record).splitlines())


class _Said(NamedTuple):
    """How many lines of a cause were written since a time, how many were left out, and the last one."""

    since: float
    written: int = 0
    left_out: int = 0
    last: str = ""


class Lines(logging.StreamHandler[TextIO]):
    """Writes lines, so many of one cause in a minute, and then how many there were besides. A cause is the attribute `cause` of a record; else
    the text of the code that made it. The attribute `most` says how many lines, if it isn't MOST_LINES.
    """

    def __init__(self, stream: TextIO, clock: Clock = time.monotonic) -> None:
        super().__init__(stream)
        self.setFormatter(_Form("%(asctime)s " + FORMAT))
        self._clock = clock
        self._said: dict[Hashable, _Said] = {}

    def emit(self, record: logging.LogRecord) -> None:
        """Writes a record, or counts it."""
        cause: Hashable = getattr(record, "cause", (record.name, record.msg))
        if cause not in self._said and len(self._said) >= MOST_CAUSES:
            cause = None
        said = self._said.get(cause) or _Said(self._clock())
        if said.written < getattr(record, "most", MOST_LINES):
            self._said[cause] = said._replace(written=said.written + 1)
            super().emit(record)
        else:
            last = record.getMessage()
            self._said[cause] = said._replace(left_out=said.left_out + 1, last=last)

    def look(self, is_over: bool = False) -> None:
        """Says how many lines were left out of those whose minute is over: of all if the server ends."""
        with self.lock:  # type: ignore[union-attr]
            begin = self._clock() - SECONDS
            for cause, said in list(self._said.items()):
                if said.since <= begin or is_over:
                    del self._said[cause]
                    if said.left_out:
                        text = f"{said.left_out:,} more lines like this one: {said.last}"
                        super().emit(logging.makeLogRecord({"msg": text}))


def start(requests: bool) -> None:
    """Writes what happens to standard error: what fails or changes, and each request if that is asked for."""
    logging.basicConfig(level=logging.WARNING, handlers=[Lines(sys.stderr)])
    # What isn't HTTP is a client's fault, and is told among the requests.
    logging.getLogger(LOG).setLevel(logging.ERROR)
    if requests:
        REQUESTS.setLevel(logging.INFO)


async def watch() -> None:
    """Says what was left out, until it is cancelled."""
    lines = [one for one in logging.getLogger().handlers if isinstance(one, Lines)]
    try:
        while True:
            await asyncio.sleep(1)
            for one in lines:
                one.look()
    finally:
        for one in lines:
            one.look(is_over=True)


def note_request(alike: Alike, seconds: float, request_id: str) -> None:
    """Notes a request that was answered, or refused."""
    if REQUESTS.isEnabledFor(logging.INFO):
        text = "%s %s %s %d, %.1f ms, %s"
        REQUESTS.info(text, *alike, seconds * 1000, request_id, extra={"cause": alike})
