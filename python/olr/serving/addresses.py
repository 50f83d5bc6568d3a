"""The addresses, and what each answers."""

import json
from collections.abc import AsyncGenerator, Callable, Iterator, Mapping, Sequence
from contextlib import aclosing
from functools import lru_cache, partial
from starlette.requests import Request
from starlette.responses import Response
from starlette.routing import Route
from starlette.types import ASGIApp
from typing import NamedTuple

from olr.asking.files import Version
from olr.asking.exchange import Asked
from olr.errors import ToolError
from olr.model.fault import Fault
from olr.model.questions import NUMBERS, What, record_text
from olr.serving import features, openapi, streaming
from olr.serving.accepting import field_of
from olr.serving.bodies import Records
from olr.serving.files import FileAnswer, answer_of, typed
from olr.serving.limits import MOST_TAKEN, Limits
from olr.serving.lists import Lists
from olr.serving.makers import Makers
from olr.serving.meters import MEDIA_TYPE, Meters
from olr.serving.pages import INDEX, Asset, assets, described, with_data
from olr.serving.peers import Shares
from olr.serving.posted import posted_in, records_of
from olr.serving.problems import Problem, of_error
from olr.serving.queries import (
    MOST_ASKED,
    Options,
    Question,
    asked_of,
    options_of,
    question_of,
    reference_of,
    require_no_options,
)
from olr.serving.rooms import Room
from olr.serving.routing import Addresses
from olr.serving.rows import Rows
from olr.serving.scenes import Scenes
from olr.serving.served import Served
from olr.serving.streaming import Streaming
from olr.serving.tags import tag_of, tagged, tags_of, unchanged
from olr.version import VERSION

JSON = "application/json"
VARY, VARIES = (b"vary", b"Accept"), {"Vary": "Accept"}
"""What an answer depends on that is there as GeoJSON too: as bytes, and as texts."""
WITH_FEATURES = ("match", "places")
"""Questions whose answers are there as GeoJSON too."""
MOST_PREFIXES = 16
"""OpenAPI documents that are kept, each for another path with which addresses begin."""


class Shared(NamedTuple):
    """What several maps have together, so that they need no more memory than one."""

    makers: Makers
    alone: Room
    """For what is made one at a time."""
    taken: Shares
    """Answers in files."""
    lists: Lists

    @classmethod
    def of(cls, limits: Limits, makers: Makers) -> "Shared":
        """What a server has."""
        taken = Shares(MOST_TAKEN, "answers that are taken")
        return cls(makers, Room(limits.time, 1), taken, Lists(limits))


class Service(NamedTuple):
    """What the addresses are about."""

    served: Served
    limits: Limits
    meters: Meters
    shared: Shared
    """What the addresses of all maps share."""
    tiles: str | None = None
    """The URL of tiles for the page."""
    is_ending: Callable[[], bool] = lambda: False
    """Whether the server was told to end."""
    maps: Mapping[str, Served] = {}
    """All maps of the server by their names."""


def application(service: Service) -> Addresses:
    """The application."""
    answers = _Answers(service)
    return Addresses(
        [
            *(
                Route(f"/{what}", partial(answers.question, what), methods=["GET", "POST"])
                for what in NUMBERS
            ),
            Route("/show", answers.show),
            Route("/scene", answers.scene),
            Route("/messages", service.shared.lists.answer, methods=["POST"]),
            *(
                Route(f"/batch/{what}", partial(answers.batch, what), methods=["POST"])
                for what in NUMBERS
            ),
            Route("/rows", answers.rows(), methods=["POST"]),
            Route("/health", answers.health),
            Route("/ready", answers.ready),
            Route("/maps", answers.maps),
            Route("/metrics", answers.metrics),
            *_pages(service),
        ],
        answers.problem_of,
    )


class _Answers:
    """What the addresses answer that ask the map."""

    def __init__(self, service: Service) -> None:
        self._service, self._served, self._limits = service, service.served, service.limits
        self._taken, makers = service.shared.taken, service.shared.makers
        self._features = features.Features(self._served, makers, service.shared.alone)
        self._rows = Rows(self._served, makers)
        self._scenes = Scenes(self._served, self._limits, makers, service.tiles)

    async def question(self, what: What, request: Request) -> ASGIApp:
        """The answer to a question, as the program gives it or as GeoJSON; or the lines about a few references."""
        if request.method == "POST":
            posted = await posted_in(request, self._limits)
            if posted.refs is not None:
                return self._few(what, posted.options, posted.refs, request)
            options = posted.options
        else:
            options = options_of(request.scope["query_string"])
        question = question_of(what, options, self._limits.look)
        has_features = what in WITH_FEATURES
        if has_features and features.is_wanted(accept_of(request)):
            file = await self._features.of(question)
            return FileAnswer(file, [VARY, typed(features.MEDIA_TYPE)], self._taken)
        fields = [VARY] if has_features else []
        known_tags = tags_of(request)
        version = self._served.unchanged() if known_tags else None
        if version is not None and (tag := self._tag(question, version)) in known_tags:
            return unchanged(tag, fields)
        known = await self._served.answer(question)
        tag = self._tag(question, known.version)
        if tag in known_tags:
            return unchanged(tag, fields)
        response = tagged(Response(known.json, media_type=JSON), tag, fields)
        return answer_of(response, self._taken)

    def _tag(self, question: Question, version: Version) -> str:
        """The tag of the answer of the program to a question on a version of the map."""
        asked, text, after = question
        head = _head_of_tag(self._served.program_version, version, asked)
        return tag_of(b"%b%a\n%b" % (head, after, text))

    def _few(self, what: What, options: Options, refs: Sequence[str], request: Request) -> ASGIApp:
        """Lines about a few references."""
        asked = asked_of(what, options, self._limits.look)
        return self._lines(what, request).about(asked, records_of(refs))

    async def batch(self, what: What, request: Request) -> ASGIApp:
        """Lines about those of a body."""
        return self._lines(what, request)

    def _lines(self, what: What, request: Request) -> Streaming:
        """Lines of JSON, or of GeoJSON where that is asked for."""
        lines, media_type = self._json_lines, streaming.MEDIA_TYPE
        seq, has_features = features.OF_LINES, what in WITH_FEATURES
        if has_features and features.is_wanted(accept_of(request), seq, media_type):
            lines = partial(self._rows.lines, "features")
            media_type = seq
        headers = {"Content-Type": media_type} | (VARIES if has_features else {})
        return Streaming(self._limits, what, lines, headers)

    async def _json_lines(self, asked: Asked, body: Records) -> AsyncGenerator[bytes, None]:
        """Lines as those of `olr batch`."""
        async with aclosing(self._served.batch(asked, body)) as answered:
            async for some in answered:
                yield b"".join(one.line() for one in some)

    def rows(self) -> Streaming:
        """The rows of the page's list."""
        lines = partial(self._rows.lines, "rows")
        return Streaming(self._limits, "places", lines, numbers_alone=True)

    async def show(self, request: Request) -> Response:
        """What a reference says."""
        options = options_of(request.scope["query_string"])
        text = record_text(reference_of(options))
        require_no_options(options)
        tag = tag_of(f"{self._served.program_version}\nshow\n".encode() + text)
        if tag in tags_of(request):
            return unchanged(tag)
        said = await self._served.show(text)
        return tagged(Response(said, media_type=JSON), tag)

    async def scene(self, request: Request) -> ASGIApp:
        """What the page draws."""
        options = options_of(request.scope["query_string"])
        file = await self._scenes.scene(options)
        return FileAnswer(file, [typed(JSON)], self._taken)

    async def health(self, _: Request) -> Response:
        """That the server lives, with what it knows of its map."""
        return (await self._known())[1]

    async def ready(self, _: Request) -> Response:
        """Whether it can answer whatever is asked: also what needs another process, which reads the map's files anew."""
        is_ready, response = await self._known()
        if not is_ready or self._service.is_ending():
            response.status_code = 503
        return response

    async def _known(self) -> tuple[bool, Response]:
        """Whether the map can be asked and read, and what is known of it."""
        is_able, about = await self._served.health()
        versions = {"olr": about.pop("program"), "olr-tools": VERSION}
        text = json.dumps({"able": is_able, **about, "versions": versions}, ensure_ascii=False)
        return is_able and not about["changed"], Response(text, media_type=JSON)

    async def maps(self, _: Request) -> Response:
        """The maps of the server, by their names, with what is known of each."""
        found = []
        for name, served in self._service.maps.items():
            is_able, about = await served.health()
            del about["program"]
            found.append({"name": name or None, "able": is_able, **about})
        return Response(json.dumps({"maps": found}, ensure_ascii=False), media_type=JSON)

    async def metrics(self, _: Request) -> Response:
        """What was counted."""
        return Response(self._service.meters.text(), headers={"Content-Type": MEDIA_TYPE})

    def problem_of(self, error: Problem | ToolError) -> Problem:
        """Why there is no answer. Faults of references are counted."""
        if isinstance(error, Fault):
            self._service.meters.count_fault(error.name)
        return error if isinstance(error, Problem) else of_error(error)


@lru_cache(maxsize=MOST_ASKED)
def _head_of_tag(program: str, version: Version, asked: Asked) -> bytes:
    """What a tag depends on besides the reference and the cursor. No part has a line end."""
    return "\n".join([program, *map(str, version), asked.what, *asked.words, ""]).encode()


def accept_of(request: Request) -> str:
    """The types that a client likes."""
    return field_of(request.scope["headers"], b"accept")


def _pages(service: Service) -> Iterator[Route]:
    """The pages, and what they load."""
    there = assets()
    fixed = {
        "/": with_data(there.pop(INDEX), service.limits, service.tiles),
        "/docs": Asset(described(openapi.document(service.limits)).encode(), "text/html"),
        **{f"/assets/{name}": asset for name, asset in there.items()},
    }

    @lru_cache(maxsize=MOST_PREFIXES)
    def document(root_path: str) -> Asset:
        text = json.dumps(openapi.document(service.limits, root_path), ensure_ascii=False, indent=1)
        return Asset(text.encode(), JSON)

    async def answer(request: Request) -> Response:
        return await document(request.scope.get("root_path", "")).answer(request)

    yield Route("/openapi.json", answer)
    yield from (Route(path, asset.answer) for path, asset in fixed.items())
