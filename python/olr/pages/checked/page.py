"""The page on which answers are checked."""

import hashlib
import shlex
from pathlib import Path
from typing import Any, NamedTuple

from olr.client.map_client import Map
from olr.confidence.choosing import Chosen
from olr.confidence.feed import LEAST_REFERENCES
from olr.confidence.messages import LEAST_CHECKED, start_of_line
from olr.errors import ToolError
from olr.matching.asking import Asked
from olr.matching.columns import ANSWERS
from olr.matching.kept_columns import kept_columns
from olr.messages.message import Reading
from olr.messages.message_file import MessageFile
from olr.messages.opening import name_of
from olr.model.asked_with import Asking
from olr.model.map_folder import store_of
from olr.model.profiles import DEFAULT_PROFILE, PROFILE
from olr.model.questions import all_words
from olr.pages.checked.picking import others_text, picked
from olr.pages.html import Template, data_text, html_of
from olr.pages.kept import cells_of
from olr.pages.report.expectation import sentence
from olr.pages.report.rows import rows_of
from olr.pages.report.sample import SEED
from olr.pages.view.surroundings import Scene
from olr.trials.rightness import RIGHT

TEMPLATE = Template("olr.pages.checked", ("scenes", "table", "picture"))
FILE = "checked.csv"
"""What the page saves."""
RIGHT_PLACE = (
    "A place, the blue band in each picture, is right if it and the path that the sender meant cover at least "
    f"{RIGHT * 100:.0f} percent of each other, by length. Where you can't tell, go on to the next one."
)
NEXT = (
    f"Then save {FILE}, and give it to the command below. It takes {LEAST_CHECKED} checked messages or more: forty decide more about the "
    "level of its probabilities than the whole feed does."
)
OF_SHOWN = ("within", "most")
"""The numbers that say which places are shown, of which trials have no use."""
MOST_CHECKED = 1_000
"""Pictures of a page."""


class Checking(NamedTuple):
    """What is checked."""

    messages: Path
    folder: Path
    """That of the map."""
    reading: Reading
    asking: Asking
    sure: Chosen

    def title(self) -> str:
        """What the page is called."""
        return f"Check: {Path(name_of(self.messages)).name} on {self.folder.resolve().name}"

    def command(self, lines: int) -> str:
        """The command that takes the file next, for messages of which so many have line references. The page is for others too: it has
        names without the folders above."""
        usual = {**Reading()._asdict(), PROFILE: DEFAULT_PROFILE}
        given = {**self.reading._replace(keep=())._asdict(), PROFILE: self.asking.profile}
        numbers = {**self.asking.given, **self.asking.numbers}
        words = ["olr-tools", "calibrate", "--map", self.folder.resolve().name]
        words += ["--for", self.messages.name]
        words += [
            it for name in given if given[name] != usual[name] for it in (f"--{name}", given[name])
        ]
        words += all_words(
            {name.removesuffix("_"): numbers[name] for name in numbers if name not in OF_SHOWN}
        )
        words += ["--differ", "D"] if lines < LEAST_REFERENCES else []
        return shlex.join([*words, "--checked", FILE, "--out", "confidence.json"])


def page_to_check(
    checking: Checking, asked: Map, given: MessageFile, wanted: int, tiles: str | None
) -> tuple[str, list[str]]:
    """Picks so many of the messages of a file, asks about them, and makes the page of HTML: with it, the lines of a summary. Raises `ToolError`,
    also for a store, and if too few can be checked."""
    if (store := store_of(checking.folder)) is not None:
        raise ToolError(
            f"{store} is a store, and calibrate takes checked answers about a map in a folder: take a part of its file by olr-tools import --bbox"
        )
    numbers, sure = checking.asking.numbers, checking.sure
    pick = picked(Asked(asked, given), numbers, wanted)
    found = rows_of(pick.sample, asked, numbers, sure.confidence)
    kept = kept_columns(given.kept, ANSWERS)
    count, command = len(pick.sample), checking.command(pick.lines)
    by = "order in the file" if sure.note else "probability of their likeliest places"
    drawn = f"{count:,} of {pick.possible:,} messages that can be checked: a systematic sample by the {by}, drawn with seed {SEED}"
    few = f"{wanted:,} were wanted: no more can be checked" if count < wanted else ""
    others = others_text("can't be checked: ", pick.others)
    data: dict[str, Any] = {
        "title": checking.title(),
        "texts": [RIGHT_PLACE, NEXT],
        "command": command,
        "drawn": [sentence(text) for text in (drawn, few, others) if text],
        "least": LEAST_CHECKED,
        "file": FILE,
        "kept": list(kept),
        "rows": [
            {
                "record": one.record,
                "key": one.key,
                "kept": cells_of(one, kept),
                "start": start_of_line(one.key or ""),
            }
            for one, _ in pick.sample
        ],
        "scenes": [_of_likeliest(scene) for scene in found.scenes if scene is not None],
        "lines": found.lines,
    }
    name = hashlib.sha256(data_text(data).encode()).hexdigest()
    page = html_of(TEMPLATE, checking.title(), data | {"name": f"olr checked {name}"}, tiles)
    lines = (drawn, few, others, checking.asking.line(), checking.sure.note, f"then: {command}")
    return page, list(filter(None, lines))


def _of_likeliest(scene: Scene) -> Scene:
    """A scene with the likeliest place alone, and without how probable it is and why: who checks it shall not be swayed."""
    likeliest = scene["entries"][0] | {"probability": "", "reasons": ""}
    return scene | {"entries": [likeliest], "probability": []}
