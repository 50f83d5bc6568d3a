"""The page that answers by itself says of 300 drawn cases of each question what the program says, byte for byte."""

import json
import pytest
import random
import re
from collections import Counter
from collections.abc import Mapping, Sequence
from pathlib import Path
from typing import NamedTuple, get_args
from urllib.parse import quote

import olr
from alone import draw_two_ways
from asking import draw_references
from browser import Browser
from conftest import TOP, Program, Tools, by_default
from olr.model.profiles import DEFAULT_PROFILE, PROFILES, tolerances_of
from olr.model.questions import NUMBERS, TOLERANCES, What
from page_of_file import FilePage, answer_in, lines_of_batch, write_page

QUESTIONS: tuple[What, ...] = get_args(What)
MOST = {"radius": 300, "page": 40, "look": 5000}
"""Drawn numbers aren't greater, so that an answer takes a moment."""
SETS, OF_ONE = 10, 10
"""Sets of numbers, and references that are asked about with one of them."""
STRANGE = [
    "",
    " ",
    "CwVG",
    "%",
    "é",
    "\N{GRINNING FACE}",
    "A" * 400,
    "-h",
    "a&b=c#d+e",
    "\t",
    "a\tb",
]

Options = dict[str, str | int]


class Asked(NamedTuple):
    """A map whose page is open, and references to ask about."""

    program: Program
    folder: Path
    page: FilePage
    references: Sequence[str]


class Case(NamedTuple):
    """What the page is asked, and what the program says: an answer, or a fault."""

    address: str
    text: str | None
    fault: str | None

    def expected(self) -> tuple[int, str]:
        """The status and the text of the page."""
        if self.text is not None:
            return 200, self.text
        fault = olr.Fault(str(self.fault))
        said = f"{fault.text}: {fault.meaning}" if fault.meaning else fault.text
        document = {
            "type": f"docs#{fault.name}",
            "title": fault.name,
            "status": 422,
            "detail": said,
        }
        return 422, json.dumps(document, separators=(",", ":"), ensure_ascii=False)


def address(what: str, ref: str, options: Mapping[str, object]) -> str:
    """The address of a question."""
    pairs: dict[str, object] = {"ref": ref, **options}
    return f"{what}?" + "&".join(f"{name}={quote(str(it), safe='')}" for name, it in pairs.items())


def drawn_options(what: What, draws: random.Random) -> Options:
    """Some of the numbers that a question has, and at times a profile."""
    options: Options = {"profile": draws.choice(list(PROFILES))} if draws.random() < 0.3 else {}
    for name, number in {**TOLERANCES, **NUMBERS[what]}.items():
        most = min(number.greatest, MOST.get(name, number.greatest))
        if draws.random() < 0.3:
            options[name] = draws.randint(min(number.default, most), most)
        elif draws.random() < 0.1:
            options[name] = draws.randint(number.least, most)
    return options


def words_of(options: Options) -> list[str]:
    """The same as words of the program."""
    numbers: Options = {**tolerances_of(str(options.get("profile", DEFAULT_PROFILE))), **options}
    numbers.pop("profile", None)
    return [word for name, it in numbers.items() for word in (f"--{name}", str(it))]


def damaged(text: str, draws: random.Random) -> str:
    """A text with a letter in place of another one, or more or less of it."""
    at, letter = draws.randrange(len(text)), draws.choice("AAaz/+9=é \t")
    changed = text[:at] + letter + text[at + 1 :]
    return draws.choice([changed, changed, changed, text[:at], text[:at] + letter + text[at:]])


def drawn_references(references: Sequence[str], count: int, draws: random.Random) -> list[str]:
    """So many of some references, of which every fifth is damaged, and some are strange."""
    drawn = draws.choices(references, k=count)
    for number in range(0, count, 5):
        drawn[number] = damaged(drawn[number], draws)
    drawn[draws.randrange(count)] = draws.choice(STRANGE)
    return drawn


def cases(asked: Asked, what: What) -> list[Case]:
    """What the program says, asked with several sets of numbers."""
    draws = random.Random(what)
    found = []
    for _ in range(SETS):
        options = drawn_options(what, draws)
        refs = drawn_references(asked.references, OF_ONE, draws)
        words = words_of(options)
        lines = lines_of_batch(asked.program, what, asked.folder, [("", it) for it in refs], *words)
        for ref, line in zip(refs, lines, strict=True):
            fault = json.loads(line)["fault"]
            text = answer_in(line) if fault is None else None
            found.append(Case(address(what, ref, options), text, fault))
    return found


def single_case(
    program: Program, question: str, ref: str, options: Options, *words: object
) -> Case:
    """What the program says of one reference that is a word."""
    ended = program.run(question, *words, "--format", "json", "--", ref)
    text, fault = ended.stdout.removesuffix("\n"), ended.stderr.strip().removeprefix("olr: ")
    answer = without_mark(text) if not fault else None
    return Case(address(question, ref, options), answer, fault or None)


def without_mark(text: str) -> str:
    """A text whose cursor has no mark of the map, as it has none in the lines of many records."""
    return re.sub('("next":"[^"@]*)@[0-9a-f]{64}"', r'\1"', text)


def require_same(page: FilePage, expected: Sequence[Case]) -> None:
    """The page says what the program says, and asks no host."""
    page.begin()
    found = page.answers([case.address for case in expected])
    pairs = zip(expected, found, strict=True)
    assert [(case, answer) for case, answer in pairs if case.expected() != answer][:2] == []
    assert page.is_quiet()


@pytest.fixture(scope="module")
def all_asked(
    browser: Browser, program: Program, tools: Tools, tmp_path_factory: pytest.TempPathFactory
) -> list[Asked]:
    """The maps of the examples, of a drawing, and of that one with bans, twists and the greatest ids."""
    place = tmp_path_factory.mktemp("pages")
    twisted = draw_two_ways(place)
    drawn = draw_references(place / "drawn", 60)
    texts = [(TOP / "examples" / name).read_text() for name in ("messages.tsv", "unmatched.tsv")]
    of_examples = [line.split("\t")[1] for text in texts for line in text.splitlines()]
    return [
        Asked(program, folder, FilePage(browser, write_page(tools, folder, place / name)), refs)
        for folder, name, refs in (
            (TOP / "examples", "examples.html", of_examples),
            (place / "drawn", "drawn.html", drawn),
            (twisted, "twisted.html", drawn),
        )
    ]


@pytest.mark.parametrize("what", QUESTIONS)
def test_a_hundred_cases_of_each_map(all_asked: list[Asked], what: What) -> None:
    texts, faults = set(), Counter[str | None]()
    for asked in all_asked:
        expected = cases(asked, what)
        assert len(expected) == 100
        require_same(asked.page, expected)
        texts |= {case.text for case in expected}
        faults.update(case.fault for case in expected)
    assert len(texts) > 80 and len(faults) > 4 and faults[None] > 150


def test_lines_within_references(all_asked: list[Asked]) -> None:
    """The end of a line makes no second record of a reference."""
    asked = all_asked[0]
    ref = asked.references[0]
    given = [f"{ref}\n{ref}", f"{ref[:8]}\n{ref[8:]}", f"\n{ref}\r\n", f"{ref}\r{ref}", "\n"]
    on = by_default("--map", asked.folder)
    require_same(
        asked.page,
        [single_case(asked.program, what, one, {}, *on) for what in QUESTIONS for one in given],
    )


def test_three_hundred_references_that_are_shown(all_asked: list[Asked]) -> None:
    draws = random.Random(1)
    refs = [ref for asked in all_asked for ref in drawn_references(asked.references, 97, draws)]
    refs += [*STRANGE, f"{refs[1][:8]}\n{refs[1][8:]}", f"\n{refs[1]}\r"]
    expected = [single_case(all_asked[0].program, "show", ref, {}) for ref in refs]
    assert len(expected) >= 300
    require_same(all_asked[0].page, expected)


def test_pages_behind_a_cursor(all_asked: list[Asked]) -> None:
    """Those that a first page ends with, and others, which aren't its."""
    count, faults = 0, set()
    for asked in all_asked:
        on = by_default("--map", asked.folder)
        expected = []
        for ref in list(dict.fromkeys(asked.references))[:15]:
            first = asked.program.run("match", *on, "--page", 1, "--format", "json", "--", ref)
            found = json.loads(first.stdout)["matchings"] if first.returncode == 0 else []
            for after in [one["cursor"] for one in found] + ["8:0.0.0", "1.1"]:
                options: Options = {"page": 2, "after": after}
                words = (*on, "--page", 2, "--after", after)
                expected.append(single_case(asked.program, "match", ref, options, *words))
            count += len(found)
        faults |= {case.fault for case in expected}
        require_same(asked.page, expected)
    assert count > 20 and len(faults) > 1
