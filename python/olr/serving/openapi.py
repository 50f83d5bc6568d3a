"""The addresses as an OpenAPI document, of version 3.0, which most makers of clients read. Options, ranges and defaults are those of `olr.model.questions`, and profiles those of
`olr.model.profiles`. A tolerance has no default here: who writes it into each request, as clients that are made from such documents do, would
never ask with another profile.
"""

from collections.abc import Collection, Iterable, Mapping

from olr.messages.message import BASE64
from olr.model.answers import Reference
from olr.model.profiles import DEFAULT_PROFILE, PROFILE, PROFILES, about_text, tolerances_of
from olr.model.questions import NUMBERS, TOLERANCES, Number, What, options_for
from olr.serving import features, listing, lists, meters, posted, problems, streaming
from olr.serving.limits import Limits
from olr.serving.queries import AFTER, REF, numbers_of
from olr.serving.schemas import (
    BOOLEAN,
    OF_QUESTION,
    TEXT,
    Json,
    examples,
    line_name,
    object_of,
    reference_to,
    schemas,
)
from olr.version import VERSION

EXAMPLE = "CwVF/yN2yRpnBAFUAAgbpwYBAf9kK0Fa"
SUMMARIES: Mapping[What, str] = {
    "candidates": "The lines on which the points of a reference may lie",
    "match": "The matchings of a reference, best first",
    "places": "Whether a reference fits one place of the map, or several",
    "why": "Why a reference has no matching, and what helps",
}
STATUSES = {
    "400": "An option that isn't one, is out of its range or is given twice; no reference",
    "422": "A reference without an answer: the title is the name of the fault",
    "503": "Too much is asked at once, the program failed, or the map can't be read: ask again later",
    "504": "The program took too long",
}
OF_BODIES = STATUSES | {"408": "A body that came too slowly"}
OTHERS = {"default": "Another problem, which any address may answer"}
JSON = "application/json"


def document(limits: Limits, at: str = "") -> Json:
    """The document of a server whose addresses begin with a path `at`, such as `/olr`."""
    likeliest = _numbers("places", limits)
    rows = "The likeliest place of each reference, and how probable it is, as the page's list shows them: a line for each line"
    gets = {
        **{what: _question(what, limits) for what in NUMBERS},
        "show": _cached(
            _address("What a reference says, without the map", [_reference()], _answer(Reference))
        ),
        "scene": _address(
            "All that the page draws of a reference",
            [_reference(), *likeliest],
            {JSON: _about("Scene")},
        ),
    }
    posts = {
        **{what: _posted(what, limits) for what in NUMBERS},
        **{f"batch/{what}": _batch(what, limits) for what in NUMBERS},
        "rows": _lines(rows, likeliest, limits, _lines_of("Row")),
        "messages": _messages(limits),
    }
    own = {
        "health": _health(
            "That the server lives, with the name, digests and versions of what it serves", {}
        ),
        "ready": _health(
            "Whether the server can answer whatever is asked, and the same about it",
            {"503": "It can't: the files of the map have changed or can't be read, or it ends"},
        ),
        "maps": _address("The maps of the server", [], {JSON: _about("Maps")}, {}),
        "metrics": _address(
            "Figures for Prometheus", [], {meters.MEDIA_TYPE: {"schema": TEXT}}, {}
        ),
    }
    paths: dict[str, Json] = {}
    for method, some in (("get", gets), ("post", posts), ("get", own)):
        for name, address in some.items():
            there = paths.setdefault(f"/{name}", {})
            there[method] = {"operationId": _operation(method, name, gets)} | address
    return {
        "openapi": "3.0.3",
        "info": {
            "title": "olr-tools serve",
            "version": VERSION,
            "description": "Where OpenLR references lie on a map. Each error is a problem document (RFC 9457).",
        },
        "servers": [{"url": at or "/"}],
        "paths": paths,
        "components": {"schemas": schemas()},
    }


def _operation(method: str, name: str, gets: Collection[str]) -> str:
    """The name of a call in clients that are made of the document, such as `batchMatch`, and `postMatch` beside `match`."""
    first, *others = name.split("/")
    if method == "post" and name in gets:
        first, others = method, [name]
    return first + "".join(map(str.capitalize, others))


def _question(what: What, limits: Limits) -> Json:
    parameters = [*_own(what), *_settings(what, limits)]
    return _cached(_address(SUMMARIES[what], parameters, _answers(what)))


def _cached(address: Json) -> Json:
    """An address whose answers have an ETag."""
    address["responses"]["304"] = {"description": "The answer is that of If-None-Match"}
    return address


def _own(what: What) -> list[Json]:
    """The options of a question about one reference."""
    after = _parameter(AFTER, TEXT, "a cursor: the page behind it is answered")
    return [_reference(), after] if what == "match" else [_reference()]


def _answers(what: What) -> Json:
    """The answers to a question about one reference."""
    answers = _answer(OF_QUESTION[what])
    if what in ("match", "places"):
        answers[features.MEDIA_TYPE] = _about("Features")
    return answers


def _posted(what: What, limits: Limits) -> Json:
    """A question about one reference, or a few, as JSON."""
    options = {it["name"]: _described(it) for it in _settings(what, limits)}
    refs = {"type": "array", "items": TEXT, "maxItems": posted.MOST_REFS}
    own = {it["name"]: _described(it) for it in _own(what)}
    one = object_of(own | options, "A reference", (AFTER, *options))
    many = object_of({posted.REFS: refs} | options, "References", options)
    bodies = {"oneOf": [one, many, refs | {"description": "References"}]}
    content = {posted.MEDIA_TYPE: {"schema": bodies, "example": {REF: EXAMPLE}}}
    too_large = f"A body of more than {posted.MOST_BYTES:,} bytes"
    refusals = OF_BODIES | {"413": too_large, "415": "A body of another type"}
    summary = f"{SUMMARIES[what]}: options are members of a JSON object. With refs in place of ref, or a list, a line for each reference"
    found = _address(summary, [], {**_answers(what), **_batch_lines(what)}, refusals)
    return found | {"requestBody": {"required": True, "content": content}}


def _described(parameter: Json) -> Json:
    """The schema of a parameter, with what it says."""
    found: Json = parameter["schema"] | {"description": parameter["description"]}
    return found


def _answer(made: type) -> Json:
    """An answer of the program, which is read as an object of a class."""
    return {JSON: _about(made.__name__)}


def _about(name: str) -> Json:
    """What a media type has: a schema, with an example if there is one."""
    there = examples()
    return {"schema": reference_to(name)} | ({"example": there[name]} if name in there else {})


def _lines_of(name: str) -> Json:
    """What lines of JSON have: a text, of which each line has a schema. OpenAPI 3.0 has no word for that."""
    text = TEXT | {"description": f"Lines of JSON, each of which is a {name}"}
    return {streaming.MEDIA_TYPE: {"schema": text, "x-item-schema": reference_to(name)}}


def _batch_lines(what: What) -> Json:
    """Lines of answers to a question, of JSON or of GeoJSON."""
    found = _lines_of(line_name(what))
    if what in ("match", "places"):
        text = TEXT | {"description": "Texts of GeoJSON (RFC 8142), each of which is a FeatureLine"}
        about = {"schema": text, "x-item-schema": reference_to("FeatureLine")}
        found[features.OF_LINES] = about
    return found


def _address(
    summary: str, parameters: list[Json], answers: Json, refusals: Mapping[str, str] = STATUSES
) -> Json:
    """An address, with its answers by their types, and the problems that it answers too by their statuses."""
    responses: Json = {"200": {"description": "The answer", "content": answers}}
    for status, text in (refusals | OTHERS).items():
        problem = {problems.MEDIA_TYPE: _about("Problem")}
        responses[status] = {"description": text, "content": problem}
    return {"summary": summary, "parameters": parameters, "responses": responses}


def _health(summary: str, refusals: Mapping[str, str]) -> Json:
    """An address that says what the server knows of its map, with each status."""
    found = _address(summary, [], {JSON: _about("Health")}, {})
    for status, text in refusals.items():
        found["responses"][status] = {"description": text, "content": {JSON: _about("Health")}}
    return found


def _batch(what: What, limits: Limits) -> Json:
    summary = f"{SUMMARIES[what]}: a line for each line"
    return _lines(summary, _settings(what, limits), limits, _batch_lines(what))


def _lines(summary: str, parameters: list[Json], limits: Limits, answers: Json) -> Json:
    """An address that answers lines of JSON about lines of a body."""
    too_large, other = f"A body of more than {limits.body:,} bytes", "A body of another type"
    refusals = OF_BODIES | {"413": too_large, "415": other}
    taken = "Lines of a key, a tab and a reference, or of a reference alone"
    found = _address(summary, parameters, answers, refusals)
    return found | {"requestBody": _body(taken, streaming.TAKEN)}


def _body(text: str, media_types: Iterable[str]) -> Json:
    """A body of one of these types."""
    content = {kind: {"schema": TEXT} for kind in media_types}
    return {"required": True, "description": text, "content": content}


def _messages(limits: Limits) -> Json:
    formats = TEXT | {"enum": list(lists.FORMATS_OF_LISTS)}
    base64 = TEXT | {"enum": list(BASE64), "default": BASE64[0]}
    parameters = [
        _parameter("format", formats, "by default the first line shows it"),
        _parameter("ref", TEXT, "the column or member of references, by default ref"),
        _parameter("key", TEXT, "the column or member of keys, by default key"),
        _parameter("base64", base64, "that of the references: url has - and _, and needs no ="),
    ]
    summary = "What a list of messages has in it, as olr-tools match reads a file: record, key, reference and fault, a line for each"
    too_large = f"A list of more than {lists.most_bytes(limits):,} bytes"
    refusals = OF_BODIES | {"413": too_large, "422": "A list that isn't understood"}
    taken = (
        f"Lines of a key, a tab and a reference, CSV, JSON or XML. The first {listing.MOST_ROWS:,} messages are answered, and one more "
        "if there are more"
    )
    found = _address(summary, parameters, _lines_of("Message"), refusals)
    return found | {"requestBody": _body(taken, ["application/octet-stream"])}


def _reference() -> Json:
    text = "a reference: the text of its binary format, in base64. A plus sign may stand as it is"
    return _parameter(REF, TEXT, text) | {"required": True, "example": EXAMPLE}


def _settings(what: What, limits: Limits) -> list[Json]:
    """All options of a question but the reference and a cursor."""
    found = _numbers(what, limits)
    for name, option in options_for(what).items():
        kind: Json = TEXT | {"enum": list(option.words)} if option.words else BOOLEAN
        found.append(_parameter(name, kind | {"default": option.default}, option.purpose))
    return found


def _numbers(what: What, limits: Limits) -> list[Json]:
    """The profile, the tolerances, and the other numbers of a question."""
    names = {"type": "string", "enum": list(PROFILES), "default": DEFAULT_PROFILE}
    about = "; ".join(map(about_text, PROFILES))
    found = [_parameter(PROFILE, names, f"the tolerances that aren't given: {about}")]
    for name, number in TOLERANCES.items():
        defaults = ", ".join(f"{one} {tolerances_of(one)[name]}" for one in PROFILES)
        text = f"; by default that of the profile: {defaults}"
        found.append(_number(name, number, text))
    for name, number in numbers_of(what, limits.look).items():
        found.append(_number(name, number, default=number.default))
    return found


def _number(name: str, number: Number, more: str = "", **schema: int) -> Json:
    span = {"type": "integer", "minimum": number.least, "maximum": number.greatest}
    return _parameter(name, span | schema, f"{number.purpose} ({number.unit}){more}")


def _parameter(name: str, schema: Json, text: str) -> Json:
    return {"name": name, "in": "query", "schema": schema, "description": text}
