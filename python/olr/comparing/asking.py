"""The messages of a file that are asked on two maps, a chunk at a time: no more of them are held."""

from collections.abc import Iterable, Iterator, Mapping, Sequence
from itertools import islice, tee
from typing import NamedTuple, cast

from olr.client.map_client import Map
from olr.comparing.changes import Compared, Side, compared
from olr.comparing.places import Answer, Limits, likeliest_places
from olr.geometry.network import Network
from olr.matching.rows import AnswerRows
from olr.messages.message import Message
from olr.model.answers import Places
from olr.model.questions import Setting, likely

CHUNK = 64
"""So many references are compared at once."""


class Chunk(NamedTuple):
    """Some references on both maps, and the row of each on the old one and on the new one."""

    references: Sequence[Compared]
    old: AnswerRows
    new: AnswerRows


class Comparison:
    """Two maps, of which both are asked about each reference."""

    def __init__(self, old: Map, new: Map, numbers: Mapping[str, int], limits: Limits) -> None:
        """The numbers are those of `places`. Reads both maps. Raises `ToolError`."""
        self._old, self._new = (_Asked(one, one.network()) for one in (old, new))
        self._settings, self._limits = likely(numbers) | {"most": 1, "shape": True}, limits

    def chunks(self, messages: Iterable[Message]) -> Iterator[Chunk]:
        """The references of messages, compared. Raises `ToolError`, also if a store changes meanwhile."""
        kept, for_old, for_new = tee(messages, 3)
        old = self._old.places(for_old, self._settings)
        new = self._new.places(for_new, self._settings)
        answered = zip(kept, old, new, strict=True)
        while chunk := list(islice(answered, CHUNK)):
            yield self._chunk(*zip(*chunk))

    def _chunk(
        self, messages: Sequence[Message], old: Sequence[Answer], new: Sequence[Answer]
    ) -> Chunk:
        """Messages with their answers, compared."""
        texts = [message.reference for message in messages]
        before, old_rows = self._old.located(texts, old)
        after, new_rows = self._new.located(texts, new)
        references = [
            compared(message, one, other, self._limits)
            for message, one, other in zip(messages, before, after)
        ]
        return Chunk(references, old_rows, new_rows)


class _Asked(NamedTuple):
    """One of the maps."""

    map: Map
    network: Network

    def places(
        self, messages: Iterable[Message], settings: Mapping[str, Setting]
    ) -> Iterator[Answer]:
        """The places of the references of messages."""
        asked, again = tee(messages)
        answers = self.map.answers("places", (one.reference for one in again), **settings)
        for message, answer in zip(asked, cast(Iterator[Answer], answers), strict=True):
            yield message.answer(answer)

    def located(
        self, texts: Sequence[str], answers: Sequence[Answer]
    ) -> tuple[list[Side], AnswerRows]:
        """Where the map has references, by the answers about their places, and why those have none that have none; and their rows."""
        rows, shapes = likeliest_places(answers, self.network)
        lacking = [isinstance(one, Places) and not one.places for one in answers]
        wanted = [text for text, lacks in zip(texts, lacking) if lacks]
        reasons = iter(list(self.map.answers("why", wanted, nearest=0)) if wanted else [])
        sides = [
            Side(answer, shape, next(reasons) if lacks else None)
            for answer, shape, lacks in zip(answers, shapes, lacking)
        ]
        return sides, rows
