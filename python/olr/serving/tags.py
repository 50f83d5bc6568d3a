"""Tags of answers: a client that has an answer asks whether it is still the same one."""

import hashlib
from collections.abc import Sequence
from starlette.requests import Request
from starlette.responses import Response

from olr.serving.accepting import Field, field_of

CACHING = (b"cache-control", b"no-cache")
"""A client keeps an answer, and asks each time whether it is still the same."""


def tag_of(content: bytes) -> str:
    """The tag of a content, or of what makes one. Others have another tag."""
    return f'"{hashlib.blake2b(content, digest_size=16).hexdigest()}"'


def tags_of(request: Request) -> Sequence[str]:
    """The tags of the answers that a client says to have, packed or not."""
    said = field_of(request.scope["headers"], b"if-none-match")
    if not said or request.method not in ("GET", "HEAD"):
        return ()
    return [one.strip().removeprefix("W/") for one in said.split(",")]


def tagged(response: Response, tag: str, fields: Sequence[Field] = ()) -> Response:
    """An answer, to which its tag is added and other fields. They are bytes: to make them of texts, as Starlette does, takes twice as long."""
    response.raw_headers += [*fields, (b"etag", tag.encode()), CACHING]
    return response


def unchanged(tag: str, fields: Sequence[Field] = ()) -> Response:
    """What a client is answered that has the answer with a tag, with the other fields that this would have."""
    return tagged(Response(status_code=304), tag, fields)
