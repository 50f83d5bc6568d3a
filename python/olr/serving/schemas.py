"""What answers have in them, as schemas of OpenAPI 3.0, by their names. Those of the program's answers are made of the classes of
`olr.model.answers`, and those of rows of the columns of `olr.matching.columns`, with their types and sentences. No answer has other members.
"""

import inspect
import json
import re
from collections.abc import Collection, Mapping, Sequence
from dataclasses import fields, is_dataclass
from functools import cache
from importlib import resources
from types import NoneType
from typing import Any, Literal, get_args, get_origin, get_type_hints

from olr.matching.columns import ANSWERS, IN_FRONT, Answers, InFront
from olr.matching.tables import Column, Kind, sentences_of
from olr.model import answers
from olr.model.answers import (
    Candidates,
    Matching,
    Page,
    PlaceOfReference,
    Places,
    Reference,
    Shape,
    Why,
)
from olr.model.pieces import Piece, Pieces, Place, Spot, Spots
from olr.model.questions import What

Json = dict[str, Any]
INTEGER: Json = {"type": "integer"}
NUMBER: Json = {"type": "number"}
TEXT: Json = {"type": "string"}
BOOLEAN: Json = {"type": "boolean"}
OF_KIND: Mapping[Kind, str] = {"int64": "integer", "float": "number", "str": "string"}
OF_QUESTION: Mapping[What, type] = {
    "candidates": Candidates,
    "match": Page,
    "places": Places,
    "why": Why,
}
"""The class of the answer to a question."""
OF_ONE_KIND: Mapping[type, Collection[str]] = {
    Matching: ("earliest", "latest", "outer", "inner"),
    PlaceOfReference: ("probability", "reasons"),
    Places: ("none_of_these", "map_differs", "differs"),
    Reference: ("negative", "orientation", "side"),
    Shape: ("outer", "inner"),
}
"""Members that lines alone have, points along lines alone, or places in the likely order."""
OF_ROW = "verdict probability none_of_these reasons total margin turns_back fault".split()
"""Columns of the rows of the page's list."""
ANYTHING: Json = {"type": "array", "items": {}}
OF_SCENE: Mapping[str, Json] = {
    **dict.fromkeys(("reference", "kind", "offsets", "command", "looking"), TEXT),
    **dict.fromkeys(("probability", "notes"), {"type": "array", "items": TEXT}),
    **dict.fromkeys(("points", "candidates", "entries", "others", "lines"), ANYTHING),
    "verdict": {"type": "object"},
    "why": {"type": "object", "nullable": True},
    "cut": INTEGER,
    "more": BOOLEAN,
    "tiles": TEXT | {"nullable": True},
}


def reference_to(name: str) -> Json:
    """A schema by its name."""
    return {"$ref": f"#/components/schemas/{name}"}


def or_null(schema: Json) -> Json:
    """What may be null too."""
    return schema | {"nullable": True}


def object_of(members: Mapping[str, Json], about: str, optional: Collection[str] = ()) -> Json:
    """An object with these members, and no others."""
    needed = [name for name in members if name not in optional]
    return {
        "type": "object",
        "description": about,
        "properties": dict(members),
        "additionalProperties": False,
    } | ({"required": needed} if needed else {})


def line_name(what: What) -> str:
    """The name of the schema of a line of `/batch`."""
    return f"{OF_QUESTION[what].__name__}Line"


@cache
def schemas() -> Mapping[str, Json]:
    """All of them."""
    classes = [it for it in vars(answers).values() if isinstance(it, type) and is_dataclass(it)]
    found = {it.__name__: _of_class(it) for it in classes}
    found |= {line_name(what): _line(it) for what, it in OF_QUESTION.items()}
    return found | {
        "Features": _features(_feature(_columns(ANSWERS, Answers))),
        "FeatureLine": _feature({**_message_front(), **_columns(ANSWERS, Answers)}),
        "Row": _row(),
        "Message": _message(),
        "Scene": _scene(),
        "Health": _health(),
        "Maps": _maps(),
        "Problem": _problem(),
    }


@cache
def examples() -> Mapping[str, Any]:
    """Answers by the names of their schemas."""
    text = resources.files("olr.serving").joinpath("examples.json").read_text(encoding="utf-8")
    found: dict[str, Any] = json.loads(text)
    return found


def _of_class(made: type) -> Json:
    """What is read as an object of a class: an object with its fields."""
    hints = get_type_hints(made)
    members = {it.name.removesuffix("_"): _of_hint(hints[it.name]) for it in fields(made)}
    about, _, _ = (inspect.getdoc(made) or "").partition("\n\n>>>")
    about = re.sub(r": the answer of `[^`]*`", "", " ".join(about.split()))
    asked_for = [it.name.removesuffix("_") for it in fields(made) if it.metadata]
    return object_of(members, about, (*OF_ONE_KIND.get(made, ()), *asked_for))


def _of_hint(hint: Any) -> Json:
    """What is read as a value of a type."""
    kind, within = get_origin(hint), get_args(hint)
    if NoneType in within:
        (one,) = (it for it in within if it is not NoneType)
        return or_null(_of_class(one) if is_dataclass(one) else _of_hint(one))
    if kind is Literal:
        return TEXT | {"enum": list(within)}
    if kind in (tuple, Sequence):
        return {"type": "array", "items": _of_hint(within[0])}
    if hint in (Pieces, Spots):
        return {"type": "array", "items": _of_hint(Piece if hint is Pieces else Spot)}
    if hint in (Piece, Place, Spot):
        about = ", ".join(name.removesuffix("_") for name in hint._fields)
        many = len(hint._fields)
        return {
            "type": "array",
            "items": INTEGER,
            "minItems": many,
            "maxItems": many,
            "description": about,
        }
    plain = {int: INTEGER, str: TEXT, bool: BOOLEAN}
    return reference_to(hint.__name__) if is_dataclass(hint) else plain[hint]


def _line(made: type) -> Json:
    """A line of `/batch`."""
    members = {
        "answer": or_null(_of_class(made)),
        "fault": or_null(TEXT),
        "key": or_null(TEXT),
        "record": INTEGER,
    }
    return object_of(members, "The answer to a record, or null and the fault")


def _columns(columns: Mapping[str, Column[Any]], table: type) -> dict[str, Json]:
    """Columns, each of which may lack its value."""
    said = {
        name: re.sub(r"\[([^]]*)\]\([^)]*\)", r"\1", text)
        for name, text in sentences_of(table).items()
    }
    return {
        name: {"type": OF_KIND[column.kind], "nullable": True, "description": said[name]}
        for name, column in columns.items()
    }


def _feature(columns: Mapping[str, Json]) -> Json:
    """A feature with these columns."""
    spot = {"type": "array", "items": NUMBER, "minItems": 2, "maxItems": 2}
    geometry = {
        "type": TEXT | {"enum": ["Point", "LineString"]},
        "coordinates": {"type": "array", "items": {"oneOf": [NUMBER, spot]}},
    }
    about = "One row for each matching or place; one without a geometry where there is none"
    feature = {
        "type": TEXT | {"enum": ["Feature"]},
        "properties": object_of(columns, about),
        "geometry": or_null(
            object_of(geometry, "A polyline, or a point along a line, in degrees of WGS 84")
        ),
    }
    return object_of(feature, "A row")


def _features(feature: Json) -> Json:
    """Answers as GeoJSON."""
    collection = {
        "type": TEXT | {"enum": ["FeatureCollection"]},
        "name": TEXT,
        "crs": {"type": "object"},
        "features": {"type": "array", "items": feature},
    }
    return object_of(collection, "Matchings or places, as GeoJSON")


def _row() -> Json:
    """A row of the page's list."""
    columns = _columns(ANSWERS, Answers)
    cut_off = "whether looking ended before a place that might be shown"
    none = "why there are no probabilities with these options; null if there are, and for a record that is refused"
    members = {
        **_message_front(),
        **{name: columns[name] for name in OF_ROW},
        "verdict": TEXT | {"description": columns["verdict"]["description"]},
        "cut_off": BOOLEAN | {"description": cut_off},
        "no_probabilities": or_null(TEXT | {"description": none}),
    }
    return object_of(members, "The likeliest place of a reference, and how probable it is")


def _message_front() -> dict[str, Json]:
    """What a row begins with."""
    columns = _columns(IN_FRONT, InFront)
    return columns | {"record": INTEGER | {"description": columns["record"]["description"]}}


def _message() -> Json:
    """A message of a list."""
    fault = "why the message has no reference, where its element form can't be written in binary"
    own = {"reference": TEXT, "fault": or_null(TEXT | {"description": fault})}
    return object_of({**_message_front(), **own}, "A message of a list")


def _scene() -> Json:
    """What the page draws. It is for the page: what its members have within may change with each release."""
    return object_of(OF_SCENE, inspect.getdoc(_scene) or "")


def _health() -> Json:
    """What the server says of itself and its map."""
    members = _map() | {
        "versions": object_of({"olr": TEXT, "olr-tools": TEXT}, "Of the program, and of the tools"),
    }
    return object_of(members, "What the server knows of its map")


def _maps() -> Json:
    """The maps of a server."""
    name = or_null(TEXT | {"description": "as in /{map}/match; null for a map alone"})
    one = object_of({"name": name} | _map(), "A map")
    return object_of({"maps": {"type": "array", "items": one}}, "The maps of the server")


def _map() -> dict[str, Json]:
    """What is known of a map."""
    digests = {"network": or_null(TEXT), "bans": or_null(TEXT)}
    return {
        "able": BOOLEAN | {"description": "whether a process that runs can answer"},
        "map": TEXT | {"description": "the name of the folder or store"},
        "digest": object_of(digests, "Digests of the files that are served", digests),
        "changed": BOOLEAN | {"description": "whether the files are others now"},
        "refused": or_null(TEXT | {"description": "why files that were to be read anew weren't"}),
    }


def _problem() -> Json:
    """A problem document."""
    members = {
        "type": TEXT | {"format": "uri-reference", "description": "leads to a page that says more"},
        "title": TEXT | {"description": "a word; for a reference without an answer, its fault"},
        "status": INTEGER,
        "detail": TEXT | {"description": "what is wrong"},
        "request_id": TEXT | {"description": "the name of the request, as in X-Request-Id"},
    }
    return object_of(members, "Why there is no answer (RFC 9457)", ["request_id"])
