"""A number of a question is a row of one table: options of commands, addresses, the OpenAPI document and the page are made of it."""

import json
import pytest
import subprocess
import sys
from typing import Any

from conftest import TOP
from olr.model.questions import ALL, NUMBERS, TOLERANCES, Number, Tolerance

ROWS = """
import json
import sys
from olr.model import questions

questions.TOLERANCES["height"] = questions.Tolerance(2, 90, 40, "storeys", "admit lines so much higher")
questions.NUMBERS["places"]["depth"] = questions.Number(3, 70, 30, "fathoms", "list places so deep")
questions.NUMBERS["match"]["page"] = questions.Number(4, 60, 20, "leaves", "list so many leaves")

import click
import olr
from olr.commands import match, view
from olr.model.asked_with import Asking
from olr.model.profiles import FEED
from olr.serving import openapi, pages
from olr.serving.limits import Limits
from olr.serving.problems import Problem
from olr.serving.queries import asked_of

def problem(what, options):
    try:
        return asked_of(what, options, limits.look).words
    except Problem as problem:
        return problem.detail

def fault(call):
    try:
        return call()
    except olr.Fault as fault:
        return fault.text

limits = Limits(look=5)
paths = openapi.document(limits)["paths"]
page = pages.with_data(pages.assets()["index.html"], limits, None).content.decode()
json.dump({
    "help": {
        name: " ".join(command.get_help(click.Context(command)).split())
        for name, command in (("match", match.command), ("view", view.command))
    },
    "kinds": {
        "places": problem("places", {"depth": "31"}),
        "why": problem("why", {"height": "41"}),
        "range of depth": problem("places", {"depth": "71"}),
        "range of height": problem("match", {"height": "1"}),
        "range of page": problem("match", {"page": "61"}),
        "other question": problem("match", {"depth": "31"}),
        "greatest look": problem("places", {"look": "5"}),
        "look": problem("places", {"look": "6"}),
    },
    "faults": {
        "height": fault(lambda: questions.number_words("height", 91)),
        "depth": fault(lambda: questions.number_words("depth", 71)),
        "page": fault(lambda: questions.number_words("page", 61)),
    },
    "openapi": {
        path: [it for it in methods[method]["parameters"] if it["name"] in ("height", "depth", "page", "look")]
        for path, methods in paths.items() for method in ([*methods][:1])
    },
    "page": json.loads(page.partition('type="application/json">')[2].partition("</script>")[0]),
    "python": olr.Map.of_folder(sys.argv[1], height=41).tolerances["height"],
    "asked with": Asking("places", FEED, {"height": 41}, {}).text(),
}, sys.stdout)
"""
"""An interpreter that adds two rows before it imports what is made of them, and changes one. Its server admits a `look` of 5."""


@pytest.fixture(scope="module")
def shown() -> Any:
    """What it shows of these rows."""
    command = [sys.executable, "-c", ROWS, str(TOP / "examples")]
    ended = subprocess.run(command, capture_output=True, check=True, cwd=TOP / "python")
    return json.loads(ended.stdout)


def test_help(shown: Any) -> None:
    texts = shown["help"]
    height = (
        "--height N Admit lines so much higher: 2 to 90 storeys, by default that of the profile."
    )
    assert height in texts["match"] and height in texts["view"]
    depth = "list places so deep: 3 to 70 fathoms, by default 30."
    assert f"--depth N With --places, {depth}" in texts["match"]
    assert f"--depth N L{depth[1:]}" in texts["view"]
    assert "list so many leaves: 4 to 60 leaves, by default 20." in texts["match"]
    assert "--page" not in texts["view"]


def test_addresses(shown: Any) -> None:
    kinds = shown["kinds"]
    assert kinds["places"][12:] == (
        ["--height", "40", "--apart", "750", "--within", "30", "--look", "5", "--most", "10"]
        + ["--depth", "31"]
    )
    assert kinds["why"][12:] == ["--height", "41", "--nearest", "8"]
    assert kinds["range of depth"] == "depth is a whole number of fathoms from 3 to 70"
    assert kinds["range of height"] == "height is a whole number of storeys from 2 to 90"
    assert kinds["range of page"] == "page is a whole number of leaves from 4 to 60"
    assert "--look" in kinds["greatest look"]
    assert kinds["look"] == "look is 5 at most on this server"
    assert kinds["other question"].startswith("'depth' is no option of /match: it has ref, after, ")
    assert kinds["other question"].endswith("slack, height, page, detail, shape")


def test_python(shown: Any) -> None:
    assert shown["faults"] == {
        "height": "BadTolerance height",
        "depth": "BadNumber depth",
        "page": "BadPage 61",
    }
    assert shown["python"] == 41
    assert "slack 300 dm, height 41 storeys, profile feed but for height, " in shown["asked with"]
    assert shown["asked with"].endswith("most 10 places, depth 30 fathoms")


def test_openapi(shown: Any) -> None:
    found = {
        path: {it["name"]: (it["schema"], it["description"]) for it in parameters}
        for path, parameters in shown["openapi"].items()
    }
    height = (
        {"type": "integer", "minimum": 2, "maximum": 90},
        "admit lines so much higher (storeys); by default that of the profile: program 40, feed 40",
    )
    depth = (
        {"type": "integer", "minimum": 3, "maximum": 70, "default": 30},
        "list places so deep (fathoms)",
    )
    page = (
        {"type": "integer", "minimum": 4, "maximum": 60, "default": 20},
        "list so many leaves (leaves)",
    )
    look = (
        {"type": "integer", "minimum": 1, "maximum": 5, "default": 5},
        "look at so many (matchings)",
    )
    places = {"/places", "/scene", "/batch/places", "/rows"}
    matches = {"/match", "/batch/match"}
    others = {"/candidates", "/batch/candidates", "/why", "/batch/why"}
    assert {path for path in found if "depth" in found[path]} == places
    assert {path for path in found if "page" in found[path]} == matches
    assert {path for path in found if "height" in found[path]} == places | matches | others
    for path in places:
        assert found[path] == {"height": height, "look": look, "depth": depth}
    assert found["/match"] == {"height": height, "page": page}


def test_page(shown: Any) -> None:
    data = shown["page"]
    assert data["tolerances"][-1] == {
        **{"name": "height", "least": 2, "greatest": 90, "default": 40},
        **{"unit": "storeys", "purpose": "admit lines so much higher"},
    }
    assert data["numbers"][-1] == {
        **{"name": "depth", "least": 3, "greatest": 70, "default": 30},
        **{"unit": "fathoms", "purpose": "list places so deep"},
    }
    assert data["numbers"][2] == {
        **{"name": "look", "least": 1, "greatest": 5, "default": 5},
        **{"unit": "matchings", "purpose": "look at so many"},
    }
    assert data["names"]["places"] == ["apart", "within", "look", "most", "depth"]
    assert [profile["tolerances"]["height"] for profile in data["profiles"]] == [40, 40]


def test_rows_of_the_table() -> None:
    """No two numbers have one name, and each default is in its range."""
    assert len(ALL) == len(TOLERANCES) + sum(map(len, NUMBERS.values()))
    for name, number in ALL.items():
        assert number.least <= number.default <= number.greatest, name
        assert isinstance(number, Tolerance) == (name in TOLERANCES), name


def test_a_number_that_is_bounded() -> None:
    """Its default isn't above the bound, and a bound above its range changes nothing."""
    number = Number(1, 50, 20, "places", "list so many")
    assert number.at_most(30) == number._replace(greatest=30)
    assert number.at_most(10) == number._replace(greatest=10, default=10)
    assert number.at_most(60) == number
