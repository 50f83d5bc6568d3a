"""Other paths of a matching where they are shown: in scenes, on pages, and by a server."""

import json
import pytest
import signal
from collections.abc import Sequence
from pathlib import Path

import olr
from blocks import block
from browser import Browser
from conftest import REFERENCE, Program, Tools
from olr.pages.view.scene import scene_of
from olr.regions.making import make_store_of_folder
from servers import path_of, serving, wait_until
from test_live import SETTLED


NEARLY = "is one of several paths within 1.5 percent: another one is"


def along(lat: float) -> list[list[float]]:
    """A path past the block, which has this latitude beside it."""
    return [[0.0, 0.0], [0.0, 0.003], [lat, 0.0035], [0.0, 0.004], [0.0, 0.008]]


def test_the_scene(program: Program, tmp_path: Path) -> None:
    """The other path of a leg of the first entry, and the leg, by latitude and longitude. Without one there is nothing."""
    drawn = block(south=(600, 684))
    with olr.Map(drawn.drawing.write(tmp_path / "map"), program=program.path) as asked:
        scene = scene_of(drawn.text, asked)
        assert scene["notes"] == [f"Leg 1 {NEARLY} 8.4 m longer."]
        (drawn_others,) = scene["others"]
        assert drawn_others == {"leg": along(0.0005), "other": along(-0.0005)}
        scene = scene_of(REFERENCE, asked)
        assert (scene["notes"], scene["others"], scene["entries"]) == ([], [], [])


@pytest.mark.parametrize("live", [(), ("--live",)])
def test_the_page(tools: Tools, browser: Browser, tmp_path: Path, live: Sequence[str]) -> None:
    """A line beside the first one makes a second entry, of which nothing is said. So it is where the page asks by itself."""
    drawn = block(south=(642, 642))
    drawn.drawing.line((0, 0), (1500, 100), (3000, 0), length=3500)
    folder, page = drawn.drawing.write(tmp_path / "map"), tmp_path / "page.html"
    ended = tools.run("view", drawn.text, "--map", folder, "--out", page, *live)
    assert (ended.returncode, ended.stderr) == (0, "")
    drawn_paths = "document.querySelectorAll('path.other').length"
    corners = "document.querySelector('path.other').getAttribute('d').split('L').length"
    browser.open(page)
    if live:
        browser.value(SETTLED)
        # Where something is typed, digits are no keys.
        browser.value("document.activeElement.blur()")
    notes = "[...document.querySelectorAll('.entry')].map((it) => [...it.querySelectorAll('.note')].map((note) => note.innerText))"
    assert browser.value(notes) == [[f"Leg 1 {NEARLY} 8.4 m longer."], []]
    legend = "document.querySelector('#samples').innerText.includes('another path, as short')"
    assert browser.value(legend)
    # Of the other path that stretch alone is drawn which the path itself leaves out.
    assert browser.value(corners) == 3
    for key, expected in (("1", 1), ("2", 0), ("1", 1), ("0", 0)):
        browser.press(key)
        assert browser.value(drawn_paths) == expected
    assert (browser.errors, browser.loaded) == ([], [])


@pytest.mark.parametrize("kind", ["folder", "store"])
def test_the_scene_of_a_server(program: Program, tmp_path: Path, kind: str) -> None:
    """It has them with the tolerances that are asked with."""
    drawn = block(south_class=5)
    drawn.drawing.line((3000, 0), (3500, 100), (4000, 0), length=1284)
    folder, store = drawn.drawing.write(tmp_path / "map"), tmp_path / "map.gpkg"
    make_store_of_folder(folder, store)
    shorter = block(south=(400, 500), south_class=5)
    with serving(
        program.path, folder if kind == "folder" else store, tmp_path / "log"
    ) as server, olr.Map(folder, program=program.path, profile="feed") as asked:
        for text in (drawn.text, shorter.text, REFERENCE):
            scene = json.loads(server.get(path_of("scene", text)).body)
            expected = scene_of(text, asked)
            assert (scene["notes"], scene["others"]) == (expected["notes"], expected["others"])
            assert bool(scene["notes"]) == (text != REFERENCE)
        scene = json.loads(server.get(path_of("scene", drawn.text, lowest=0)).body)
        assert scene["notes"] == [f"Leg 1 {NEARLY} 8.4 m longer."]
        assert scene["others"] == [{"leg": along(0.0005), "other": along(0.0001)}]


def test_a_server_says_which_tolerance_it_was_asked_with(program: Program, tmp_path: Path) -> None:
    drawn = block(south=(400, 500), south_class=5)
    folder = drawn.drawing.write(tmp_path / "map")
    allowed = ("the reference allows class 3", "the reference and --lowest 1 allow class 4")
    with serving(program.path, folder, tmp_path / "log") as server:
        for lowest, who in enumerate(allowed):
            scene = json.loads(server.get(path_of("scene", drawn.text, lowest=lowest)).body)
            assert scene["notes"] == [
                f"Leg 1: a road of class 5 would be 30.0 m shorter; {who} or better."
            ]


def test_other_bans_are_served(program: Program, tmp_path: Path) -> None:
    """The nodes and lines are the same ones then."""
    drawn = block()
    folder = drawn.drawing.write(tmp_path / "map")
    with serving(program.path, folder, tmp_path / "log") as server:
        before = json.loads(server.get(path_of("scene", drawn.text)).body)
        (folder / "bans.csv").write_text("from,to\n1,4\n")
        server.signal(signal.SIGHUP)
        wait_until(lambda: "were read anew" in server.log())
        after = json.loads(server.get(path_of("scene", drawn.text)).body)
    assert before.pop("notes") == [f"Leg 1 {NEARLY} as short."] and before.pop("others")
    assert (after.pop("notes"), after.pop("others")) == ([], [])
    assert before["entries"] == after["entries"]
