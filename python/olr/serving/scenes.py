"""All that a page draws of a reference, as JSON: `olr.pages.view.scene` says what."""

import json
from typing import IO, NamedTuple

from olr.asking.exchange import Asked
from olr.model.box import Box
from olr.model.fault import Fault
from olr.model.profiles import PROFILE
from olr.model.questions import NEAR_OF_PAGES, NUMBERS, TOLERANCES, What, record_text
from olr.serving.wanted import likely_of, shaped
from olr.serving.limits import Limits
from olr.serving.makers import Makers
from olr.serving.queries import Options, Question, asked_of, reference_of
from olr.serving.served import Asking, Served, of_one_edition
from olr.serving.tasks import AroundTask, SceneTask

NO_PLACES, NO_MATCHINGS = b'"places":[]', b'"matchings":[]'
"""What answers have that found nothing."""


class Scenes(NamedTuple):
    """Makes scenes of a map."""

    served: Served
    limits: Limits
    makers: Makers
    tiles: str | None

    async def scene(self, options: Options) -> IO[bytes]:
        """The scene of a reference, which says why it has no probabilities where it has none. The options are the tolerances and the
        numbers of `places`. Raises `Fault` if it is no reference, other errors of the package, and `Problem`.
        """
        text = record_text(reference_of(options))
        asked = asked_of("places", options, self.limits.look, numbers_alone=True)
        said = await self.served.show(text)

        async def ask(asking: Asking) -> IO[bytes]:
            candidates = await asking.answer_or_fault(self._question("candidates", options, text))
            places = await asking.answer_or_fault(self._question("places", options, text))
            page = await asking.answer_or_fault(self._question("match", options, text))
            why = None
            if not _fits(places, page):
                why = await asking.answer(self._question("why", options, text))
            task = SceneTask(
                asked.numbers(),
                self.makers.confidence,
                text.decode(),
                said,
                candidates,
                places,
                page,
                why,
                self.served.map_name,
                self.tiles,
            )
            with await self.makers.made(asking.map(), task) as file:
                (box, cursor), scene = json.loads(file.readline()), file.read()
            legs = None
            if cursor is not None:
                legs = await asking.answer_or_fault(self._legs(options, text, cursor))
            lines = await asking.within(Box(*box))
            around = AroundTask(scene, legs, lines, asked.numbers()["lowest"])
            return await self.makers.made(asking.map(), around)

        return await of_one_edition(self.served, ask)

    def _question(self, what: What, options: Options, text: bytes) -> Question:
        """A question about a reference, with those of the options that it has, and with shapes."""
        return Question(shaped(likely_of(self._asked(what, options))), text, None)

    def _legs(self, options: Options, text: bytes, cursor: str) -> Question:
        """The question about the legs of a matching, as GeoJSON."""
        tolerances = self._asked("candidates", options).words
        near = ("--near", str(NEAR_OF_PAGES))
        words = (*tolerances, *near, "--at", cursor, "--format", "geojson")
        return Question(Asked("legs", words), text, None)

    def _asked(self, what: What, options: Options) -> Asked:
        """A question with those of the options that it has."""
        names = {PROFILE, *TOLERANCES, *NUMBERS[what]}
        own = {name: value for name, value in options.items() if name in names}
        return asked_of(what, own, self.limits.look)


def _fits(places: bytes | Fault, page: bytes | Fault) -> bool:
    """Whether there is a place, or a matching."""
    if isinstance(places, Fault) or isinstance(page, Fault):
        return False
    return NO_PLACES not in places or NO_MATCHINGS not in page
