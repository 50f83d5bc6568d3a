"""What the page says of the first entry besides: other paths of its legs, in sentences and as paths."""

import json
from collections.abc import Mapping
from typing import Any

from olr.model.questions import NEAR_OF_PAGES
from olr.pages.view.paths import Path
from olr.pages.view.sentences import metres
from olr.pages.view.surroundings import Scene


def notes_of(answer: bytes | None, lowest: int) -> Scene:
    """Two members of a scene, of the program's answer to `legs` as GeoJSON: `notes`, sentences on the legs in their order, and `others`, each
    other path with that of its leg. Both are empty where nothing is known, and the answer is None. It was asked with NEAR_OF_PAGES, and
    `lowest` is the tolerance with which it was asked.
    """
    notes: list[str] = []
    drawn: list[dict[str, Path]] = []
    features = [] if answer is None else json.loads(answer)["features"]
    others = {_leg_of(one): one for one in features if one["properties"]["part"] == "other"}
    for one in features:
        if one["properties"]["part"] == "leg":
            other = others.get(_leg_of(one))
            if other is not None:
                drawn.append({"leg": _path(one), "other": _path(other)})
            notes += _texts(one["properties"], other and other["properties"], lowest)
    return {"notes": notes, "others": drawn}


def _leg_of(feature: Mapping[str, Any]) -> Any:
    """The number of the leg that a feature is of."""
    return feature["properties"]["leg"]


def _texts(leg: Mapping[str, Any], other: Mapping[str, Any] | None, lowest: int) -> list[str]:
    """Sentences on a leg, and on another path of it, if there is one."""
    number, shorter, texts = leg["leg"], leg["shorter"], []
    if other is not None:
        how = f"{metres(other['longer'])} longer" if other["longer"] else "as short"
        is_share = 1000 * other["longer"] <= NEAR_OF_PAGES * leg["length"]
        within = f"{NEAR_OF_PAGES / 10:g} percent" if is_share else "1 m"
        texts.append(f"Leg {number} is one of several paths within {within}: another one is {how}.")
    if shorter is not None:
        who = f"the reference and --lowest {lowest} allow" if lowest else "the reference allows"
        road = f"a road of class {shorter['class']} would be {metres(shorter['by'])} shorter"
        texts.append(f"Leg {number}: {road}; {who} class {leg['limit']} or better.")
    return texts


def _path(feature: Mapping[str, Any]) -> Path:
    """The line of a feature as it is drawn."""
    return [[lat, lon] for lon, lat in feature["geometry"]["coordinates"]]
