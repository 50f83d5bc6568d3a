"""References of a file that are asked one after the other, and the rows of their answers, which go to files by the hundred.

No more of them are held than are being asked, or are rows of one chunk.
"""

from collections import Counter
from collections.abc import Iterator, Mapping
from itertools import islice, tee
from typing import TYPE_CHECKING

from olr.client.answering import candidates_counted, drawn_answers
from olr.client.map_client import Map
from olr.matching.chunks import Answered, chunks_of
from olr.matching.lacking import Lacking
from olr.matching.reasons import ReasonsBeside, rows_of_reasons
from olr.matching.rows import Extent
from olr.matching.writing import Sink
from olr.messages.message import Message
from olr.messages.message_file import MessageFile
from olr.model.answers import AnswerOrFault, Page, Places, Why
from olr.model.fault import Fault
from olr.model.questions import Setting, What
from olr.progress import progress

if TYPE_CHECKING:
    from olr.geometry.network import Network

NOWHERE = "none"
"""What an answer is counted as without a place or matching: it is the verdict of `places` too."""
CHUNK = 256
"""So many rows are made at once of what `why` says."""


class Asked:
    """What was asked of the messages of a file."""

    def __init__(
        self,
        asked: Map,
        file: MessageFile,
        lacking: Lacking | None = None,
        beside: ReasonsBeside | None = None,
    ) -> None:
        """The messages of a file that are asked of a map. Those that fit nowhere go to `lacking`; or `beside` says in the rows of their places
        why.
        """
        self._map, self._lacking, self._beside = asked, lacking, beside
        self._total = file.total
        self._messages = file.messages()
        self.outcomes: Counter[str] = Counter()
        """How often an answer was what."""
        self.cut_off = 0
        """How many answers may lack a place that would be shown: looking was cut off before."""

    def write_answers(
        self,
        question: What,
        settings: Mapping[str, Setting],
        part: Extent,
        rows: Sink,
        pieces: Sink | None,
        network: "Network | None",
        with_geometries: bool,
    ) -> None:
        """Asks where the references are, and writes rows of the answers, with or without geometries, and of their pieces, which have some if
        there is a network. Raises `ToolError`."""
        messages, again = tee(self._messages)
        counted = candidates_counted(self._map, (message.reference for message in again))
        drawn = part if with_geometries else None
        both = zip(self._answered(messages, question, settings, drawn), counted, strict=True)
        answered = (Answered(message, answer, count) for (message, answer), count in both)
        for chunk in chunks_of(answered, self._map):
            self.cut_off += chunk.cut_off()
            made = chunk.rows(part)
            rows.add(chunk.items, self._beside.rows(chunk, made) if self._beside else made)
            if pieces is not None:
                pieces.add(chunk.items, chunk.pieces(network))

    def write_reasons(self, numbers: Mapping[str, int], rows: Sink) -> None:
        """Asks why references fit nothing, and writes a row for each. Raises `ToolError`."""
        answered = self._answered(self._messages, "why", numbers)
        while chunk := list(islice(answered, CHUNK)):
            messages = [message for message, _ in chunk]
            texts = [message.reference for message in messages]
            reasons = [answer for _, answer in chunk if isinstance(answer, (Why, Fault))]
            rows.add(messages, rows_of_reasons(texts, reasons))

    def answered(
        self, question: What, settings: Mapping[str, Setting]
    ) -> Iterator[tuple[Message, AnswerOrFault]]:
        """All messages with their answers, once. Raises `ToolError`."""
        return self._answered(self._messages, question, settings)

    def summary(self) -> Iterator[str]:
        """How often an answer was what, a line each, the most frequent ones first."""
        for outcome, number in sorted(self.outcomes.items(), key=lambda it: (-it[1], it[0])):
            yield f"{outcome}: {number:,}"

    def _answered(
        self,
        messages: Iterator[Message],
        question: What,
        settings: Mapping[str, Setting],
        drawn: Extent | None = None,
    ) -> Iterator[tuple[Message, AnswerOrFault]]:
        """Messages with their answers, counted by their outcome, while it is shown how far they are. Their matchings have the geometry of the part
        that is to be drawn."""
        messages, again = tee(messages)
        texts = (message.reference for message in again)
        answers = (
            self._map.answers(question, texts, **settings)
            if drawn is None
            else drawn_answers(self._map, question, texts, drawn, settings)
        )
        with progress("matching", self._total) as advance:
            for message, found in zip(messages, answers, strict=True):
                answer = message.answer(found)
                outcome = outcome_of(answer)
                self.outcomes[outcome] += 1
                if outcome == NOWHERE and self._lacking is not None:
                    self._lacking.add(message.reference)
                yield message, answer
                advance(1)


def outcome_of(answer: AnswerOrFault) -> str:
    """What the summary counts an answer as."""
    if isinstance(answer, Fault):
        return f"refused, {answer.name}"
    if isinstance(answer, Page):
        return "matched" if answer.matchings else NOWHERE
    if isinstance(answer, Places):
        return answer.verdict
    return answer.verdict.word if isinstance(answer, Why) else "candidates"
