"""How the questions to a map are put in the program's words, and its lines become answers."""

from collections.abc import Callable, Iterable, Iterator, Mapping, Sequence
from contextlib import closing
from itertools import tee
from pathlib import Path
from typing import TYPE_CHECKING, Any

from olr.asking.exchange import Asked, no_answer
from olr.asking.processes import Line
from olr.client.source import FilesSource
from olr.errors import TimedOut
from olr.model.answers import Answer, AnswerOrFault, about
from olr.model.box import Box
from olr.model.fault import Fault
from olr.model.legs_and_lines import Legs, Lines
from olr.model.objects import RawLine, number_of_candidates, read_any, read_drawn
from olr.model.questions import (
    MOST_LINES,
    NEAR,
    Setting,
    What,
    box_words,
    cursor_of,
    option_words,
    record_text,
    words_of,
    words_of_number,
)

if TYPE_CHECKING:
    from olr.client.store_source import StoreSource

Read = Callable[[Any, bytes, str | None], Any]
"""Makes an answer of what it is to, its text and the digest of the map. Raises `ValueError`."""


class Answering:
    """What `olr.Map` is below its questions."""

    _source: "FilesSource | StoreSource"
    _words: list[str]
    """Those of its tolerances."""
    _asked_with: dict[str, Any]
    _program: Path | None
    _patience: float | None

    def _asked(self, what: What, settings: Mapping[str, Setting]) -> Asked:
        """A question with the tolerances of this map. Raises as `words_of`."""
        own = words_of(what, settings)
        return Asked(what, (*self._words, *own))

    def _answer(
        self, what: What, ref: str, settings: Mapping[str, Setting], after: str | None = None
    ) -> Answer:
        """One answer. Raises `Fault`."""
        asked = self._asked(what, settings)
        more = [] if after is None else ["--after", cursor_of(after)]
        found: Answer = self._read(asked.what, self._line(asked, ref, *more), ref)
        return found

    def _line(self, asked: Asked, ref: str, *more: str) -> RawLine:
        """The line about one reference, asked with more words. Raises `Fault`, and `ToolError`."""
        text = record_text(ref).decode()
        with closing(self._source.about(asked, [text], *more)) as lines:
            return _answered(self._there(next(lines), text))

    def _legs(self, ref: str, at: str | None, near: int) -> Legs:
        """The legs of a matching. Raises `Fault`."""
        asked = Asked("legs", (*self._words, *words_of_number("near", NEAR, near)))
        more = [] if at is None else ["--at", cursor_of(at, "at")]
        found: Legs = self._read(asked.what, self._line(asked, ref, *more), ref)
        return found

    def _lines(self, box: Sequence[int], most: int, shape: bool) -> Lines:
        """The lines in a box. Raises `Fault`."""
        words = [*box_words(box), *words_of_number("most", MOST_LINES, most)]
        text = " ".join(["lines", *words, *option_words("shape", shape)])
        found = self._source.within(Box(*map(int, box)), text.encode())
        line = _answered(self._there(found, text))
        answer: Lines = self._read("lines", line)
        return answer

    def _answers(
        self, asked: Asked, refs: Iterator[str], read: Read = read_any
    ) -> Iterator[AnswerOrFault]:
        """The answers about references, in their order. Raises `ToolError`."""
        refs, again = tee(refs)
        with closing(self._source.about(asked, refs)) as lines:
            for number, (found, ref) in enumerate(zip(lines, again), 1):
                line = self._there(found, ref, number)
                fault = None if line.fault is None else Fault(line.fault)
                yield fault or self._read(asked.what, line, ref, read)

    def _there(self, line: Line, ref: str, number: int | None = None) -> RawLine:
        """A line. Raises `TimedOut` in place of that, with the reference, which has this number among many."""
        if isinstance(line, RawLine):
            return line
        text = record_text(ref).decode()
        which = repr(text) if number is None else f"reference {number}, {text!r}"
        raise TimedOut(
            f"olr answered nothing for {self._patience:g} seconds to {which}: ask again with more patience, or leave it out",
            text,
            number,
        ) from line

    def _read(self, what: str, line: RawLine, ref: str = "", read: Read = read_any) -> Any:
        """The answer of a line. Raises `ProgramEnded` if it is none."""
        try:
            found = read(what, line.answer, self._source.digest())
        except ValueError as error:
            raise no_answer(self._program or "olr", error) from error
        return about(found, ref, self._asked_with)


def _answered(line: RawLine) -> RawLine:
    """A line with an answer. Raises `Fault`."""
    if line.fault is not None:
        raise Fault(line.fault)
    return line


def drawn_answers(
    asked: Answering, what: What, refs: Iterable[str], part: str, settings: Mapping[str, Setting]
) -> Iterator[AnswerOrFault]:
    """As `Map.answers`, of `match` or `places`: each matching has the `geometry` of this part of it, and no `shape`, of which the program would
    print three parts."""
    words = (*asked._asked(what, settings).words, "--format", "geojson", "--part", part)
    return asked._answers(Asked(what, words), iter(refs), read_drawn)


def candidates_counted(asked: Answering, refs: Iterable[str]) -> Iterator[int | None]:
    """How many candidates all points of each reference have together; None where there is a fault. Raises as `Map.answers`."""
    words = asked._asked("candidates", {})
    found = asked._answers(words, iter(refs), lambda _, answer, __: number_of_candidates(answer))
    return (one if isinstance(one, int) else None for one in found)


def drawn_legs(asked: Answering, ref: str, at: str, near: int) -> bytes:
    """The GeoJSON of the legs of a matching by its cursor, as the program has it. Raises as `Map.legs`."""
    words = (*asked._words, *words_of_number("near", NEAR, near), "--format", "geojson")
    return asked._line(Asked("legs", words), ref, "--at", at).answer
