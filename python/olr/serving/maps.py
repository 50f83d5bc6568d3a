"""Several maps in one server: `/{map}/match` and so on, each with a page of its own."""

import asyncio
from collections import Counter
from collections.abc import Mapping
from starlette.responses import RedirectResponse
from starlette.types import ASGIApp, Receive, Scope, Send
from typing import NamedTuple

from olr.errors import ToolError
from olr.serving.served import Served

ALONE = ""
"""The name of a map that has none, as it is the only one."""


class Together(NamedTuple):
    """Maps that are opened, read anew and closed together."""

    maps: Mapping[str, Served]
    """By their names."""

    async def open(self) -> None:
        """Reads them. Raises `ToolError`, which names the map where there are several."""
        for name, one in self.maps.items():
            try:
                await one.open()
            except ToolError as error:
                if name == ALONE:
                    raise
                raise ToolError(f"the map {name}: {error}") from error

    async def close(self) -> None:
        """Ends all processes."""
        await asyncio.gather(*(one.close() for one in self.maps.values()))

    async def renew(self) -> None:
        """Reads the files of each anew."""
        for one in self.maps.values():
            await one.renew()

    def figures(self) -> Counter[str]:
        """Those of all."""
        found: Counter[str] = Counter()
        for one in self.maps.values():
            found.update(one.figures())
        return found


class ByName:
    """An application that hands on what is asked of `/{map}/..` to the one of that map, and all else to that of the first one."""

    def __init__(self, apps: Mapping[str, ASGIApp]) -> None:
        """`apps` are by the names of their maps: no address begins with one."""
        self._apps = apps
        self._first = next(iter(apps.values()))

    async def __call__(self, scope: Scope, receive: Receive, send: Send) -> None:
        """Answers a request. Its path is then that of an address, and its root path has the map."""
        name, slash, below = scope["path"].removeprefix("/").partition("/")
        app = self._apps.get(name)
        if app is None:
            app = self._first
        else:
            root_path = f"{scope.get('root_path', '')}/{name}"
            scope["root_path"], scope["path"] = root_path, f"/{below}"
            if not slash:
                # Links of the page are relative.
                app = RedirectResponse(f"{root_path}/", 308)
        await app(scope, receive, send)
