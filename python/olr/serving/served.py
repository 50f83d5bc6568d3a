"""A map that is served, whether it is a folder or a store: what the addresses ask of it."""

import asyncio
import logging
from abc import ABC, abstractmethod
from asyncio import Future
from collections import Counter
from collections.abc import AsyncGenerator, Awaitable, Callable
from contextlib import aclosing
from pathlib import Path
from typing import Any, TypeVar

from olr.asking.exchange import Asked
from olr.asking.files import Version
from olr.asking.records import Answered
from olr.errors import MapRefused, ToolError
from olr.model.box import Box
from olr.model.fault import Fault
from olr.serving.bodies import Records, in_order
from olr.serving.limits import PAGE_ALONE
from olr.serving.process import Answer
from olr.serving.queries import AFTER, Question
from olr.serving.tasks import MapVersion

log = logging.getLogger("olr.serving")
Made = TypeVar("Made")


class Served(ABC):
    """A map that is served."""

    map_name: str | None = None
    """The name of its folder, without those above: None for a store, which the program doesn't read."""
    program_version = ""
    """What the program says of its version."""
    ahead: int
    """So many records of one stream are asked at once."""

    def __init__(self, path: Path) -> None:
        """It is read by `open`."""
        self._name = path.resolve().name
        self._refused: str | None = None
        self._renewing = asyncio.Lock()

    @abstractmethod
    async def open(self) -> None:
        """Reads the map. Raises `ToolError`."""

    @abstractmethod
    async def close(self) -> None:
        """Ends all processes."""

    async def renew(self) -> None:
        """Reads the map anew. If it is refused all stays as it is."""
        async with self._renewing:
            try:
                await self.read_anew()
            except ToolError as error:
                self._refused = "the files that were there at the last SIGHUP were refused"
                log.error("the files aren't read anew, and the map stays as it was: %s", error)
                return
            self._refused = None
            log.warning("the files were read anew: %s", self.digests())

    @abstractmethod
    async def read_anew(self) -> None:
        """Reads what is there now. Raises `ToolError`: then all is as it was."""

    async def health(self) -> tuple[bool, dict[str, Any]]:
        """Whether it can answer, and what is known of it."""
        is_able, is_changed = await self.state()
        about: dict[str, Any] = {"map": self._name, "digest": self.digests()}
        about |= {"changed": is_changed, "refused": self._refused, "program": self.program_version}
        return is_able, about

    @abstractmethod
    async def state(self) -> tuple[bool, bool]:
        """Whether it can answer, and whether its files have changed since they were read."""

    @abstractmethod
    def digests(self) -> dict[str, str | None]:
        """Of the files that are served."""

    @abstractmethod
    def ask(
        self, asked: Asked, text: bytes, *more: str, is_in_stream: bool = False
    ) -> Future[Answer]:
        """What the program is to answer about the text of a reference, asked with more words, such as those of a cursor. See `Pool.ask`."""

    async def answer(self, question: Question) -> Answer:
        """The answer to a question. Raises `Fault`, other errors of the package, and `Problem`."""
        asked, text, after = question
        more = [] if after is None else [f"--{AFTER}", after]
        return (await self.ask(asked, text, *more)).or_fault()

    @abstractmethod
    def within(self, box: Box) -> Future[Answer]:
        """What the program is to answer about the lines in a box, with shapes. See `Pool.ask`."""

    @abstractmethod
    async def show(self, text: bytes) -> bytes:
        """What a reference says, as the program prints it. Raises as `answer`."""

    async def batch(self, asked: Asked, body: Records) -> AsyncGenerator[list[Answered], None]:
        """The answers to the records of a body, some at a time, which are of the `version` that is there at the first one. Raises as `answer`,
        as the body does, and `MapRefused` where another version takes its place."""
        version = self.version()
        ahead = 1 if asked.numbers().get("page", 0) > PAGE_ALONE else self.ahead
        asking = in_order(
            body, lambda record: self.ask(asked, record.text(), is_in_stream=True), ahead
        )
        async with aclosing(asking) as answers:
            async for some in answers:
                if any(answer.version != version for _, answer in some):
                    raise _another_version()
                yield [Answered(record, answer.json, answer.fault) for record, answer in some]

    @abstractmethod
    def version(self) -> Version | None:
        """The one that is asked now: None until it was read."""

    def unchanged(self) -> Version | None:
        """The version of the files, if all that is asked now is answered by it and they are known to be the same still. It isn't looked
        for."""
        return None

    @abstractmethod
    def files(self) -> tuple[Path, ...]:
        """Those of nodes, lines and, if there are any, bans; or that of a store."""

    @abstractmethod
    def figures(self) -> Counter[str]:
        """How many processes are `working` and `idle`, and how many requests `waiting`; the `starts` of processes, and how many ended that
        weren't told to, by the reason: `ended`, `map` and `time`."""


def _another_version() -> MapRefused:
    return MapRefused("another version of the map took the place of the one that was asked")


class Asking:
    """Questions to a map, whose answers have to be of one version."""

    def __init__(self, served: Served) -> None:
        self._served = served
        self.versions: set[Version] = set()
        """Those of the answers."""

    async def answer(self, question: Question) -> bytes:
        """The JSON of an answer. Raises as `Served.answer`."""
        answer = await self._served.answer(question)
        self.versions.add(answer.version)
        return answer.json

    async def answer_or_fault(self, question: Question) -> bytes | Fault:
        """The JSON of an answer, or why there is none. Raises as `Served.answer` else."""
        try:
            return await self.answer(question)
        except Fault as fault:
            return fault

    async def within(self, box: Box) -> bytes | Fault:
        """The JSON of the lines in a box, or why there is none. Raises as `Served.answer` else."""
        answer = await self._served.within(box)
        self.versions.add(answer.version)
        return answer.json if answer.fault is None else Fault(answer.fault)

    def map(self) -> MapVersion:
        """The map that the answers are of. Raises `MapRefused` if the nodes or lines differ."""
        if len({version.network for version in self.versions}) != 1:
            raise _another_version()
        return MapVersion(self._served.files(), next(iter(self.versions)))


async def of_one_edition(served: Served, ask: Callable[[Asking], Awaitable[Made]]) -> Made:
    """What is made of several answers and the network, which have to be of one version of the map. Where another one takes its place
    meanwhile they are asked once more. Raises as `ask`, and `MapRefused` where that happens again.
    """
    try:
        return await ask(Asking(served))
    except MapRefused:
        return await ask(Asking(served))
