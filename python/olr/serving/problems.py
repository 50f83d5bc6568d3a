"""Why a request has no answer, as a problem document (RFC 9457)."""

import json
from collections.abc import Mapping
from http import HTTPStatus
from starlette.responses import Response
from starlette.types import Scope

from olr.asking.exchange import AnswerTooLarge, UnknownWords
from olr.errors import MapRefused, ProgramEnded, ProgramNotFound, TimedOut, ToolError
from olr.model.fault import Fault
from olr.serving.limits import MOST_ANSWER, RETRY_AFTER

MEDIA_TYPE = "application/problem+json"
PAGE = "/docs"
"""Where problems are described: each by its title."""
TITLES = {
    "BadRequest": "400: an option that isn't one, is out of its range or is given twice; no reference; or what isn't HTTP",
    "OtherOrigin": "403: the page of another site asks",
    "NotFound": "404: there is no such address",
    "MethodNotAllowed": "405: the address has another method",
    "RequestTimeout": "408: the body came too slowly",
    "BodyTooLarge": "413: the body is too long",
    "URITooLong": "414: the URL is too long",
    "UnsupportedMediaType": "415: the body has another type",
    "MisdirectedRequest": "421: the server has another name",
    "AnswerTooLarge": "422: the answer is too long; ask for less of it",
    "UnreadableList": "422: the list isn't understood",
    "HeadTooLong": "431: the head of the request is too long",
    "InternalError": "500: a defect of the server",
    "InternalServerError": "500: a defect of the server",
    "Busy": "503: too much is asked at once; ask again",
    "ProgramFailed": "503: the program failed; ask again",
    "MapRefused": "503: the files of the map have changed, or can't be read",
    "TimedOut": "504: the program took too long",
}
"""What problems are about, by their titles. All others are faults of references, with the status 422."""


class Problem(Exception):
    """A request isn't answered as it asks. The title is a word; the detail tells a user what is wrong, and has no path of the machine."""

    def __init__(
        self, status: int, title: str, detail: str, headers: Mapping[str, str] | None = None
    ) -> None:
        super().__init__(detail)
        self.status, self.title, self.detail = status, title, detail
        self.headers = dict(headers or {})

    def document(self, root_path: str = "", request_id: str | None = None) -> bytes:
        """The document, as JSON, of a server whose addresses begin with a path, such as `/olr`, and for a request with a name."""
        about = {
            "type": f"{root_path}{PAGE}#{self.title}",
            "title": self.title,
            "status": self.status,
            "detail": self.detail,
        }
        if request_id is not None:
            about["request_id"] = request_id
        return json.dumps(about, ensure_ascii=False).encode()

    def response(self, scope: Scope) -> Response:
        """The answer to a request that has it."""
        document = self.document(scope.get("root_path", ""), scope.get("request_id"))
        return Response(document, self.status, self.headers, MEDIA_TYPE)


def of_status(status: int, headers: Mapping[str, str] | None = None) -> Problem:
    """The problem of a status that says all."""
    phrase = HTTPStatus(status).phrase
    return Problem(status, phrase.title().replace(" ", "").replace("-", ""), phrase, headers)


def bad_request(detail: str) -> Problem:
    """A request that isn't understood."""
    return Problem(400, "BadRequest", detail)


def busy(detail: str) -> Problem:
    """A request that may be asked again soon."""
    return Problem(503, "Busy", detail, {"Retry-After": str(RETRY_AFTER)})


def of_fault(fault: Fault) -> Problem:
    """The problem of a reference that has no answer."""
    detail = f"{fault.text}: {fault.meaning}" if fault.meaning else fault.text
    return Problem(422, fault.name, detail)


def of_error(error: ToolError) -> Problem:
    """The problem of an error of the package. Its own text may name files, and goes to the log alone."""
    if isinstance(error, Fault):
        return of_fault(error)
    if isinstance(error, AnswerTooLarge):
        text = f"the answer has more than {MOST_ANSWER:,} bytes: ask for fewer matchings or places"
        return Problem(422, "AnswerTooLarge", text)
    if isinstance(error, MapRefused):
        text = "the files of the map aren't those that are served, or can't be read: whoever runs the server finds more in its log"
        return Problem(503, "MapRefused", text)
    if isinstance(error, TimedOut):
        text = "the program took longer than the server gives it, and was ended"
        return Problem(504, "TimedOut", text)
    if isinstance(error, (ProgramEnded, ProgramNotFound)) and not isinstance(error, UnknownWords):
        text = "the program failed, twice if it had begun: whoever runs the server finds more in its log"
        return Problem(503, "ProgramFailed", text, {"Retry-After": str(RETRY_AFTER)})
    return Problem(500, "InternalError", "whoever runs the server finds more in its log")
