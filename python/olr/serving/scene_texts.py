"""Scenes, which a page draws, as JSON: `olr.pages.view.scene` says what they are."""

import json
from typing import TypeVar

from olr.model.answers import Answer, Candidates, Page, Places, Why
from olr.model.fault import Fault
from olr.model.legs_and_lines import Lines
from olr.model.objects import read_answer, read_any, reference
from olr.model.questions import What
from olr.pages.view.notes import notes_of
from olr.pages.view.scene import Answered, add_command, first_cursor, scene_of_answers
from olr.pages.view.surroundings import box_of, lines_drawn
from olr.serving.tasks import AroundTask, SceneTask

Wanted = TypeVar("Wanted", Candidates, Page, Places, Why)


def text_of(task: SceneTask) -> bytes:
    """A line with the box around a scene and the cursor of its first entry, and the scene of answers. It says why it has no probabilities
    where it has none. Raises `ToolError`."""
    scene = scene_of_answers(_answered(task), task.confidence, task.numbers)
    add_command(scene, task.map_name, task.numbers)
    scene["tiles"] = task.tiles
    return b"%b\n%b" % (_json([box_of(scene), first_cursor(scene)]), _json(scene))


def with_surroundings(task: AroundTask) -> bytes:
    """A scene with other paths of the first entry, and the lines around it."""
    legs = task.legs if isinstance(task.legs, bytes) else None
    lines = (
        Lines((), True) if isinstance(task.lines, Fault) else read_any("lines", task.lines, None)
    )
    return b"%b,%b" % (task.scene[:-1], _json(notes_of(legs, task.lowest) | lines_drawn(lines))[1:])


def _json(value: object) -> bytes:
    return json.dumps(value, separators=(",", ":"), ensure_ascii=False).encode()


def _answered(task: SceneTask) -> Answered:
    """What the program answers."""

    def read(what: What, given: bytes | Fault, wanted: type[Wanted]) -> "Wanted | Fault":
        if isinstance(given, Fault):
            return given
        found: Answer = read_answer(what, given, None)
        assert isinstance(found, wanted)
        return found

    return Answered(
        task.reference,
        reference(task.said),
        read("candidates", task.candidates, Candidates),
        read("places", task.places, Places),
        read("match", task.page, Page),
        None if task.why is None else read("why", task.why, Why),
    )
