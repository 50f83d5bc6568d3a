"""Answers as GeoJSON, with the columns of docs/COLUMNS.md: those that `olr-tools match` writes."""

from contextlib import nullcontext
from functools import lru_cache
from typing import IO, NamedTuple, cast

from olr.asking.exchange import Asked
from olr.model.questions import TOLERANCES, What
from olr.serving.accepting import MOST_REMEMBERED, weights_of
from olr.serving.wanted import likely_of, shaped
from olr.serving.limits import PAGE_ALONE
from olr.serving.makers import Makers
from olr.serving.queries import Question
from olr.serving.rooms import Room
from olr.serving.served import Asking, Served, of_one_edition
from olr.serving.tasks import FeaturesTask

MEDIA_TYPE = "application/geo+json"
OF_LINES = "application/geo+json-seq"
"""Of lines about many references."""


@lru_cache(maxsize=MOST_REMEMBERED)
def is_wanted(accept: str, wanted: str = MEDIA_TYPE, usual: str = "application/json") -> bool:
    """Whether the field Accept of a request asks for GeoJSON rather than for JSON: that is what a client gets that likes both alike, unless
    it names GeoJSON. Both are there as lines too."""
    weights = weights_of(accept)

    def weight_of(kind: str) -> float:
        return next((weights[it] for it in (kind, "application/*", "*/*") if it in weights), 0.0)

    geojson, json = weight_of(wanted), weight_of(usual)
    return geojson > json or wanted in weights and geojson == json > 0


class Features(NamedTuple):
    """Makes GeoJSON of a map."""

    served: Served
    makers: Makers
    alone: Room
    """Of one at a time, for those that may be large."""

    async def of(self, question: Question) -> IO[bytes]:
        """A feature for each matching, or for each place that is shown, the likeliest one first; or one without a geometry. Raises as
        `Served.answer`, `Room.place` and `Makers.made`."""
        is_large = question.asked.numbers().get("page", 0) > PAGE_ALONE
        async with self.alone.place() if is_large else nullcontext():
            return await self._made(question)

    async def _made(self, question: Question) -> IO[bytes]:
        """As `of`."""
        asked = question._replace(asked=shaped(likely_of(question.asked)))

        async def ask(asking: Asking) -> IO[bytes]:
            answer = await asking.answer(asked)
            candidates = await asking.answer_or_fault(_candidates(question))
            task = FeaturesTask(cast(What, question.asked.what), answer, candidates)
            return await self.makers.made(asking.map(), task)

        return await of_one_edition(self.served, ask)


def _candidates(question: Question) -> Question:
    """The question how many candidates the points of a reference have."""
    words = question.asked.words[: 2 * len(TOLERANCES)]
    return Question(Asked("candidates", words), question.text, None)
