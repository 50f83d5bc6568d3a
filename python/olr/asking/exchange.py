"""What is said to a process `olr answer`, and what it says, without the process: whoever drives one, by threads or in an event loop, writes
what `ask` makes, hands over what was read, and at the end what else is known of it."""

import os
from collections.abc import Iterable, Iterator
from pathlib import Path
from typing import NamedTuple

from olr.asking.files import MapFiles
from olr.asking.program import PathLike
from olr.asking.starting import failed_to_start
from olr.errors import MapRefused, ProgramEnded, ProgramNotFound, ToolError
from olr.model.fault import OF_CONFIDENCE, refusal_of
from olr.model.objects import RawLine, raw_line
from olr.model.questions import OfReference

MOST_LINE_BYTES = 1 << 29
"""A line is shorter, if nothing else is said. It is held in memory."""
BAD_WORDS = "Words "
"""How the fault of a record begins whose words the program doesn't know."""
STATUS_OF_WORDS = 2
"""That of a process whose own words aren't known."""
MOST_ITEMS, LEAST_AT_ONCE = 16_384, 16
"""See `Asked.at_once`."""


class AnswerTooLarge(ProgramEnded):
    """An answer has more bytes than are held."""


class UnknownWords(ProgramEnded):
    """The program doesn't know what it is asked."""


class Asked(NamedTuple):
    """What is asked about references: a question, with the words of its tolerances, other numbers and options."""

    what: OfReference
    words: tuple[str, ...] = ()

    def about(self, reference: bytes, *more: str) -> bytes:
        """The text of a record that asks it about the text of a reference, with more words if there are any, such as those of a cursor."""
        return record_about((self.what, *self.words, *more), reference)

    def numbers(self) -> dict[str, int]:
        """Its tolerances and numbers by their names."""
        pairs = zip(self.words, self.words[1:])
        return {name.removeprefix("--"): int(value) for name, value in pairs if value.isdigit()}

    def at_once(self, most: int) -> int:
        """About how many references it is asked at once, `most` at most: fewer, and LEAST_AT_ONCE at least, if their answers might have more
        than MOST_ITEMS matchings, places or near lines together."""
        numbers = self.numbers()
        items = max(numbers.get(name, 1) for name in ("page", "most", "nearest"))
        return min(max(MOST_ITEMS // max(items, 1), LEAST_AT_ONCE), most)


def record_about(words: Iterable[str], reference: bytes) -> bytes:
    """The text of a record: the words that would stand behind `olr`, without files, and the text of a reference, whatever it has but a
    line feed."""
    return b"%b -- %b" % (" ".join(words).encode(), reference)


def words_of_process(files: MapFiles, confidence: PathLike | None) -> list[str]:
    """The words of a process behind the program, which has the map of these files, and the file of a confidence if there is one. Raises
    `MapRefused` as `MapFiles.words`."""
    of_places = [] if confidence is None else ["--confidence", os.fspath(confidence)]
    return ["answer", *files.words(), *of_places]


class Exchange:
    """The records that a process was given, and the lines with which it answered. A record has its number as its key, and its line has to
    have both. Each record asks what it asks: see `Asked.about` and `record_about`."""

    def __init__(self, program: Path, most: int = MOST_LINE_BYTES) -> None:
        """`most` is how many bytes a line may have."""
        self._program, self._most = program, most
        self.asked = 0
        """How many records there are."""
        self.answered = 0
        """How many of them have their line."""
        self._unfinished = bytearray()

    def ask(self, texts: Iterable[bytes]) -> bytes:
        """The bytes of records with these texts."""
        first = self.asked + 1
        records = [b"%d\t%s\n" % (number, text) for number, text in enumerate(texts, first)]
        self.asked += len(records)
        return b"".join(records)

    def receive(self, data: bytes) -> Iterator[RawLine]:
        """The lines that end in what was read. Raises `ProgramEnded` at one that isn't that of the next record, or says that the program doesn't
        know the words of it, and `AnswerTooLarge`."""
        looked_at = len(self._unfinished)
        self._unfinished += data
        while (end := self._unfinished.find(b"\n", looked_at)) >= 0:
            line, looked_at = bytes(self._unfinished[:end]), 0
            del self._unfinished[: end + 1]
            yield self._line(line)
        if len(self._unfinished) > self._most:
            raise AnswerTooLarge(f"{self._program} wrote a line of more than {self._most:,} bytes")

    def _line(self, line: bytes) -> RawLine:
        """The line of the next record."""
        number = self.answered + 1
        try:
            raw = raw_line(line)
        except ValueError as error:
            raise no_answer(self._program, error) from error
        if not raw.key == str(raw.record) == str(number) or number > self.asked:
            raise no_answer(self._program, f"it isn't the line of record {number}, which was asked")
        if raw.fault is not None and raw.fault.startswith(BAD_WORDS):
            raise self._another_version(raw.fault.removeprefix(BAD_WORDS))
        self.answered = number
        return raw

    def why_ended(self, status: int, said: bytes) -> ToolError:
        """The error of a process that ended though more was asked, from its status and what it said on standard error."""
        text = said.decode("utf-8", errors="replace").strip()
        line = text.splitlines()[0] if text else ""
        if not self.answered:
            refusal = failed_to_start(self._program, line) or refusal_of(line.removeprefix("olr: "))
            if isinstance(refusal, (MapRefused, ProgramNotFound)) or line.endswith(OF_CONFIDENCE):
                return refusal
            if status == STATUS_OF_WORDS:
                return self._another_version(line)
        about = f"olr {how_ended(status)} after {self.answered} answers{': ' if line else ''}{line}"
        return ProgramEnded(f"{about}: ask again, a new process is started")

    def _another_version(self, said: str) -> UnknownWords:
        """The error of a program that doesn't know what it is asked."""
        wrong = "doesn't know what it is asked: is it of another version than this package?"
        return UnknownWords(f"{self._program} {wrong} ({said})")


def no_answer(program: object, why: object) -> ProgramEnded:
    """The error of what the program wrote in place of an answer."""
    wrong = "wrote what is no answer to what it was asked: is it the program olr?"
    return ProgramEnded(f"{program} {wrong} ({why})")


def how_ended(status: int) -> str:
    """How a process ended, by its status: one below 0 is the signal that ended it."""
    return f"was ended by signal {-status}" if status < 0 else f"ended with status {status}"
