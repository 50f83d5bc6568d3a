"""Lines about the records of a body that are made of answers: those of `POST /rows`, as the page's list shows them, and those of GeoJSON.

What the program answered while the lines before were made is next: so nothing waits.
"""

from collections.abc import AsyncGenerator, Iterator, Sequence
from contextlib import aclosing
from typing import NamedTuple

from olr.asking.files import Version
from olr.asking.exchange import Asked
from olr.asking.records import Answered
from olr.serving.bodies import Records
from olr.serving.wanted import likely_of, shaped
from olr.serving.limits import MIB
from olr.serving.makers import Makers
from olr.serving.served import Served
from olr.serving.tasks import Form, LinesTask, MapVersion

MOST_BYTES = MIB
"""Of the program's answers in a lot, unless one alone has more."""


class Rows(NamedTuple):
    """Makes lines of a map."""

    served: Served
    makers: Makers

    async def lines(self, form: Form, asked: Asked, body: Records) -> AsyncGenerator[bytes, None]:
        """The lines about the records of a body, in pieces. Raises as `Makers.made` and `Served.batch`."""
        likely = likely_of(asked)
        wanted = shaped(likely) if form == "features" else likely
        async with aclosing(self.served.batch(wanted, body)) as answered:
            map = MapVersion(self.served.files(), self.served.version() or Version(None, None))
            async for some in answered:
                for lot in lots_of(some):
                    task = LinesTask(form, asked, self.makers.confidence, lot)
                    with await self.makers.made(map, task) as file:
                        made = file.read()
                    yield made


def lots_of(some: Sequence[Answered]) -> Iterator[Sequence[Answered]]:
    """Answers in lots."""
    begin = size = 0
    for number, one in enumerate(some):
        if size + len(one.answer) > MOST_BYTES and number > begin:
            yield some[begin:number]
            begin, size = number, 0
        size += len(one.answer)
    if begin < len(some):
        yield some[begin:]
