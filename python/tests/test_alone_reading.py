"""What the page that answers by itself reads: the program's JSON, queries, and numbers as Python has them."""

import json
import pytest
import random
import re
from pathlib import Path
from typing import Any

from alone import FOLDER, Scripts
from browser import Browser
from conftest import Program
from olr.model.questions import NUMBERS, What
from olr.pages.alone import page
from olr.serving.problems import Problem
from olr.serving.queries import asked_of

POINTS = ("KwVGnCN20HPDBwFCATFjT5Y=", "KwVGnCN20HPDBwFCATFjDw==")
"""Points along a line, with an offset and without one."""


@pytest.fixture(scope="module")
def scripts(browser: Browser) -> Scripts:
    return Scripts(browser)


def test_no_two_scripts_declare_one_name() -> None:
    """They are one script at last."""
    declared = re.compile(
        r"^(?:(?:async )?function\*? |class |const |let )(?:(\w+)|\[([^\]]*)\])", re.MULTILINE
    )
    names = [
        name
        for file in FOLDER.glob("*.js")
        for one, several in declared.findall(file.read_text())
        for name in ([one] if one else several.split(", "))
    ]
    assert len(names) > 100 and sorted(set(names)) == sorted(names)


def with_ids(value: Any) -> Any:
    """The program's JSON with ids as texts."""
    if isinstance(value, list):
        return [with_ids(one) for one in value]
    if not isinstance(value, dict):
        return value
    found = {}
    for name, one in value.items():
        if name == "line":
            one = str(one)
        elif name in ("route", "inner", "outer") and one is not None:
            one = [[str(piece[0]), *piece[1:]] for piece in one]
        elif name in ("earliest", "latest"):
            one = [str(one[0]), one[1]]
        found[name] = with_ids(one)
    return found


def test_answers_of_the_program(scripts: Scripts, program: Program, top: Path) -> None:
    answers = [program.run("show", text, "--format", "json").stdout for text in POINTS]
    for what in ("candidates", "match", "places", "why"):
        for text in ("CwVGnSN2zhvHCgDX/tIzAw==", "CwVGnSN2zhtnBgEB/2IjAQ==", POINTS[0]):
            words = (text, "--map", top / "examples", "--format", "json")
            answers.append(program.run(what, *words).stdout)
    answers = [text for text in answers if text]
    wanted = [with_ids(json.loads(text)) for text in answers]
    assert len(answers) > 10 and "earliest" in str(answers) and '"nearest"' in str(answers)
    assert scripts.value("answers.map(exactJson)", answers=answers) == wanted


def test_coordinates_are_numbers(scripts: Scripts) -> None:
    """Their first one is no id."""
    text = '{"shape":{"inner":null,"route":[[1,2],[3,4]]},"spot":{"latest":[5,6]}}'
    assert scripts.value("exactJson(text)", text=text) == json.loads(text)


def test_ids_beyond_the_numbers_of_javascript(scripts: Scripts) -> None:
    found = {
        '{"line":18446744073709551615,"at":9007199254740991}': {
            "line": "18446744073709551615",
            "at": 9007199254740991,
        },
        '{"id":7,"lines":[9007199254740993,1],"total":-9007199254740993}': {
            "id": "7",
            "lines": ["9007199254740993", "1"],
            "total": "-9007199254740993",
        },
        '[{"key":"a\\"9007199254740993","route":[[9007199254740993,0,1]],"outer":null}]': [
            {"key": 'a"9007199254740993', "route": [["9007199254740993", 0, 1]], "outer": None}
        ],
        '{"earliest":[9007199254740992,5],"id":null,"share":0.12345678901234567}': {
            "earliest": ["9007199254740992", 5],
            "id": None,
            "share": 0.12345678901234567,
        },
    }
    assert scripts.value("texts.map(exactJson)", texts=list(found)) == list(found.values())
    assert scripts.tried("exactJson('{')").startswith("SyntaxError")


@pytest.mark.parametrize("what", NUMBERS)
@pytest.mark.parametrize(
    "given",
    [("order", "likely"), ("order", "x"), ("detail", "true"), ("detail", "false"), ("detail", "1")],
)
def test_options_that_are_no_numbers(scripts: Scripts, what: What, given: tuple[str, str]) -> None:
    """The page asks for the same as the server, and refuses the same."""
    options = {"radius": "60", given[0]: given[1]}
    try:
        wanted: list[str] | str = list(asked_of(what, options, 1000).words)
    except Problem as problem:
        wanted = f"Problem: {problem.detail}"
    query = "&".join(f"{name}={value}" for name, value in {"ref": "x", **options}.items())
    words = "wordsOf(questionOf(what, optionsOf(query), questions).numbers)"
    assert scripts.tried(words, what=what, query=query, questions=page._questions()) == wanted


def test_numbers(scripts: Scripts) -> None:
    """Those that lie halfway between two others among them."""
    draws = random.Random(1)
    values = [number / 16 for number in range(-40, 40)] + [draws.uniform(-2, 2) for _ in range(200)]
    assert scripts.value("values.map((one) => rounded(one, 3))", values=values) == [
        round(one, 3) for one in values
    ]
