"""One edition of a map: a version of its files, which all of its processes read."""

import asyncio
from collections.abc import Callable
from functools import partial
from pathlib import Path
from typing import TypeVar

from olr.asking.exchange import words_of_process
from olr.asking.files import MapFiles, Version
from olr.asking.program import SHIPPED, PathLike, find_program
from olr.errors import ANOTHER_MAP, MapRefused

Made = TypeVar("Made")


class Edition:
    """The files of a folder's map, as they were when the first process had read them. What takes time is done in a thread."""

    def __init__(
        self, folder: Path, program: PathLike | None = None, confidence: PathLike = SHIPPED
    ) -> None:
        """Places have probabilities by the file of a confidence."""
        self.files = MapFiles.of_folder(folder)
        self.program, self._confidence = find_program(program), confidence

    def words(self) -> list[str]:
        """The words of a process, behind the program."""
        return words_of_process(self.files, self._confidence)

    async def found(self) -> Version:
        """The version that is there. Raises `MapRefused` if it isn't that of this edition."""
        return await self._asked(self.files.found)

    async def keep(self, version: Version) -> None:
        """Notes that a process has read the version that was found. Raises `MapRefused` if the files were changed meanwhile."""
        await self._asked(partial(self.files.keep, version))

    async def _asked(self, call: Callable[[], Made]) -> Made:
        """What a call of the files answers. Its error goes to the log of a server: what callers in Python do about it is left out."""
        try:
            return await asyncio.to_thread(call)
        except MapRefused as error:
            raise MapRefused(str(error).removesuffix(ANOTHER_MAP)) from error
