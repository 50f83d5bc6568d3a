"""The pages, and the files that they load. All are read at the start: no name from a request leads to a file."""

import mimetypes
import re
from collections.abc import Iterator, Mapping
from importlib import resources
from starlette.requests import Request
from starlette.responses import Response
from typing import Any, NamedTuple

from olr.model.fault_table import ROWS
from olr.pages.html import data_text, filled, leaflet, licences, origin_of
from olr.pages.page_data import page_data
from olr.serving.limits import Limits
from olr.serving.listing import MOST_ROWS
from olr.serving.lists import most_bytes
from olr.serving.problems import TITLES
from olr.serving.queries import numbers_of
from olr.serving.tags import tag_of, tagged, tags_of, unchanged

INDEX = "index.html"
SHARED = ("base.css", "picture.css", "picture.js", "shared.css", "table.js")
"""What the page has of `olr.pages`."""


class Asset(NamedTuple):
    """A file of the pages."""

    content: bytes
    media_type: str

    @classmethod
    def of_text(cls, name: str, text: str) -> "Asset":
        """A file with the type that its name says."""
        return cls(text.encode(), mimetypes.guess_type(name)[0] or "text/plain")

    async def answer(self, request: Request) -> Response:
        """The answer to a request for it: no content if the browser has it already."""
        tag = tag_of(self.content)
        if tag in tags_of(request):
            return unchanged(tag)
        return tagged(Response(self.content, media_type=self.media_type), tag)


def policy_of(tiles: str | None = None) -> str:
    """The Content-Security-Policy of all answers: pages load what the server has, and images of `tiles` if that is given, and no script or
    style within them is run. Raises `ToolError` if it isn't the URL of tiles."""
    images = "'self' data:" if tiles is None else f"'self' data: {origin_of(tiles)}"
    return (
        f"default-src 'none'; script-src 'self'; style-src 'self'; img-src {images}; connect-src 'self'; "
        "base-uri 'none'; form-action 'none'; frame-ancestors 'none'"
    )


def assets() -> dict[str, Asset]:
    """The files of the pages by their names. Raises `ToolError` if Leaflet isn't installed."""
    own = resources.files("olr.serving").joinpath("assets")
    texts = {
        file.name: file.read_text(encoding="utf-8") for file in own.iterdir() if file.is_file()
    }
    for name in SHARED:
        texts[name] = resources.files("olr.pages").joinpath(name).read_text(encoding="utf-8")
    texts["leaflet.css"] = re.sub(r"url\([^)]*\)", "none", leaflet("leaflet.css"))
    texts["leaflet.js"] = leaflet("leaflet.min.js")
    texts["licences.txt"] = licences()
    return {name: Asset.of_text(name, text) for name, text in texts.items()}


def with_data(page: Asset, limits: Limits, tiles: str | None) -> Asset:
    """The page with what its script needs to know."""
    data = page_data(numbers_of("places", limits.look), most_bytes(limits), MOST_ROWS, tiles)
    data |= {"title": "olr-tools serve"}
    text = filled(page.content.decode(), {"data": data_text(data)})
    return page._replace(content=text.encode())


def described(document: Mapping[str, Any]) -> str:
    """A page that lists the addresses of an OpenAPI document with their options, the problems and the faults."""
    template = resources.files("olr.serving").joinpath("docs.html").read_text(encoding="utf-8")
    return filled(template, {**document, "problems": TITLES, "faults": _faults()})


def _faults() -> Iterator[tuple[str, str, str]]:
    """What the faults mean: names, lines and texts. A name that is there already can't be led to again, and is empty."""
    there = set(TITLES)
    for line, (meaning, remedy) in ROWS.items():
        name = line.partition(" ")[0]
        yield "" if name in there else name, line, f"{meaning}; {remedy}".replace("`", "")
        there.add(name)
