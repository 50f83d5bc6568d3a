"""`POST /match` and so on: a question about one reference, or about a few, as JSON."""

import asyncio
import json
from collections.abc import Sequence
from starlette.requests import ClientDisconnect, Request
from typing import Any, NamedTuple

from olr.asking.records import Record
from olr.model.profiles import PROFILE
from olr.model.questions import NO_LETTER, OPTIONS, record_text
from olr.serving.limits import Limits
from olr.serving.problems import Problem, bad_request, busy
from olr.serving.queries import AFTER, REF, Options

MEDIA_TYPE = "application/json"
REFS = "refs"
MOST_REFS = 100
"""References in one body: for more there are streams, whose answers begin before the last one came."""
MOST_BYTES = 65_536
"""Of such a body. A hundred references have 34,400."""
TYPES = dict.fromkeys((REF, AFTER, PROFILE), str) | {
    name: type(option.default) for name, option in OPTIONS.items()
}
"""The types of options that aren't whole numbers."""
NAMES = {str: "a text", int: "a whole number", bool: "true or false"}


class Posted(NamedTuple):
    """What a body asks."""

    options: Options
    """As those of a URL; `ref` is among them where one reference is asked about."""
    refs: Sequence[str] | None
    """References of which each is asked about; None for one."""


async def posted_in(request: Request, limits: Limits) -> Posted:
    """What the body of a request asks. Raises `Problem` for what isn't understood, is too long, or doesn't come."""
    given = request.headers.get("content-type", "").partition(";")[0].strip().lower()
    if given != MEDIA_TYPE:
        text = f"the type of the body is {MEDIA_TYPE}: a list of records goes to /batch"
        raise Problem(415, "UnsupportedMediaType", text)
    if request.scope["query_string"]:
        raise bad_request("the options of a body of JSON are its members, and not in the URL")
    body = bytearray()
    try:
        async with asyncio.timeout(limits.time):
            async for piece in request.stream():
                body += piece
                if len(body) > MOST_BYTES:
                    text = f"a body of JSON has {MOST_BYTES:,} bytes at most: a list of records goes to /batch"
                    raise Problem(413, "BodyTooLarge", text, {"Connection": "close"})
    except TimeoutError as error:
        raise busy(f"the body wasn't there within {limits.time:g} seconds") from error
    except ClientDisconnect as error:
        raise bad_request("the body broke off") from error
    return posted_of(bytes(body))


def posted_of(body: bytes) -> Posted:
    """What a body asks. Raises `Problem`."""
    try:
        found = json.loads(body, object_pairs_hook=_members)
    except (ValueError, RecursionError) as error:
        raise bad_request("the body isn't JSON") from error
    if isinstance(found, list):
        found = {REFS: found}
    if not isinstance(found, dict):
        raise bad_request("the body is an object with ref or refs, or a list of references")
    refs = found.pop(REFS, None)
    options = {name: _text(name, value) for name, value in found.items()}
    if refs is None:
        return Posted(options, None)
    if REF in options or AFTER in options:
        raise bad_request(f"{REF} and {AFTER} are of one reference: they don't go with {REFS}")
    if not isinstance(refs, list) or not all(isinstance(ref, str) for ref in refs):
        raise bad_request(f"{REFS} is a list of texts")
    if len(refs) > MOST_REFS:
        text = f"{REFS} has {MOST_REFS} references at most: a list of records goes to /batch"
        raise bad_request(text)
    return Posted(options, refs)


def _members(pairs: Sequence[tuple[str, Any]]) -> dict[str, Any]:
    """The members of an object. Raises `Problem` for one that is there twice."""
    members = dict(pairs)
    if len(members) < len(pairs):
        names = [name for name, _ in pairs]
        twice = next(name for name in names if names.count(name) > 1)
        raise bad_request(f"{twice!r} is given twice")
    return members


def _text(name: str, value: Any) -> str:
    """The value of an option as a URL has it. Raises `Problem` for one of another type."""
    wanted = TYPES.get(name, int)
    if type(value) is not wanted:
        raise bad_request(f"{name!r} is {NAMES[wanted]}")
    return str(value).lower() if wanted is bool else str(value)


def records_of(refs: Sequence[str]) -> list[Record]:
    """References as records without keys. No reference has a tab within."""
    return [
        Record(number, record_text(ref).replace(b"\t", NO_LETTER))
        for number, ref in enumerate(refs, 1)
    ]
