"""What `why` says as rows, and as columns behind those of places."""

import numpy as np
from collections.abc import Sequence
from typing import NamedTuple

from olr.client.map_client import Map
from olr.geometry.parts import Polylines
from olr.matching.chunks import Chunk
from olr.matching.columns import NO_PLACE, REASONS, Reasons
from olr.matching.lacking import Lacking, is_without_place
from olr.matching.rows import Rows
from olr.matching.tables import values_of
from olr.messages.message import Message
from olr.model.fault import Fault
from olr.model.reference import read_points


def rows_of_reasons(texts: Sequence[str], answers: Sequence[Reasons]) -> Rows:
    """A row for each reference, with the straight line through its points."""
    lines = [
        [] if isinstance(answer, Fault) else [(lon, lat) for lon, lat, _ in read_points(text) or ()]
        for text, answer in zip(texts, answers)
    ]
    points = np.array([point for line in lines for point in line]).reshape(-1, 2) / 1e6
    shapes = Polylines(points, np.array(list(map(len, lines)), dtype=np.int64))
    return Rows(range(len(answers)), values_of(REASONS, answers), shapes)


class ReasonsBeside(NamedTuple):
    """Says why messages have no place, beside the places of others. It asks about these messages alone."""

    asked: Map
    lacking: Lacking
    """Gets those that fit nowhere."""

    def rows(self, chunk: Chunk[Message], rows: Rows) -> Rows:
        """The rows of a chunk of answers to `places`, with the columns of reasons behind the others. Raises `ToolError`."""
        reasons = self._reasons(chunk)
        values = values_of(NO_PLACE, [reasons[number] for number in rows.answers])
        return rows._replace(values={**rows.values, **values})

    def _reasons(self, chunk: Chunk[Message]) -> list[Reasons | None]:
        """Why each message of a chunk has no place: None where it has one, and its fault where that says all."""
        reasons: list[Reasons | None] = [
            it if isinstance(it, Fault) else None for it in chunk.answers
        ]
        wanted = [number for number, it in enumerate(chunk.answers) if is_without_place(it)]
        texts = [chunk.items[number].reference for number in wanted]
        found = list(self.asked.answers("why", texts, nearest=0)) if texts else []
        for number, reason in zip(wanted, found, strict=True):
            reasons[number] = reason
        nowhere = [
            (text, reason)
            for number, text, reason in zip(wanted, texts, found)
            if not isinstance(chunk.answers[number], Fault)
        ]
        self.lacking.add_answered([text for text, _ in nowhere], [why for _, why in nowhere])
        return reasons
