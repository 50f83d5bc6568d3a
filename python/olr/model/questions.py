"""What can be asked about a reference on a map, with which numbers; and a reference as the text of a record."""

import re
from collections import ChainMap
from collections.abc import Iterable, Iterator, Mapping, Sequence
from keyword import iskeyword
from math import isnan
from numbers import Integral
from typing import Any, Literal, NamedTuple, TypeVar

from olr.model.fault import Fault

What = Literal["candidates", "match", "places", "why"]
OfReference = Literal[What, "legs"]
"""What else can be asked about one reference."""
Setting = int | str
"""A number, or what an option is: a word, or whether it is given."""
Item = TypeVar("Item")


SIGNS = {
    "classes": "",
    "decimetres": " dm",
    "metres": " m",
    "penalty points": " points",
    "percent": " %",
    "sectors of 11.25 degrees": " sectors",
}
"""What stands behind a number of a unit in a short text: behind others, the unit."""


class Number(NamedTuple):
    """A number of a question: its range, what it is where it is left out, what it counts, and what it is for. The default of a tolerance
    is that of the program: `olr.model.profiles` has others."""

    least: int
    greatest: int
    default: int
    unit: str
    purpose: str

    def range_text(self) -> str:
        """Its range, with its unit and its default."""
        return f"{self.least} to {self.greatest} {self.unit}, by default {self.default}"

    def wanted_text(self, name: str) -> str:
        """What a number of that name is, for one that isn't."""
        return f"{name} is a whole number of {self.unit} from {self.least} to {self.greatest}"

    def value_text(self, name: str, value: int) -> str:
        """A value by its name, with its unit."""
        return f"{name} {value}{SIGNS.get(self.unit, f' {self.unit}')}"

    def fault_text(self, name: str, value: int) -> str:
        """What the program says of a value that is out of its range."""
        return f"BadPage {value}" if name == "page" else f"BadNumber {name}"

    def at_most(self, greatest: int) -> "Number":
        """The number where no greater one is admitted: its default isn't greater either."""
        most = min(self.greatest, greatest)
        return self._replace(greatest=most, default=min(self.default, most))


class Tolerance(Number):
    """A number that all questions have."""

    def range_text(self) -> str:
        """Its range, with its unit and where its default comes from."""
        return f"{self.least} to {self.greatest} {self.unit}, by default that of the profile"

    def fault_text(self, name: str, value: int) -> str:
        return f"BadTolerance {name}"


TOLERANCES: dict[str, Number] = {
    "radius": Tolerance(1, 1000, 100, "metres", "admit lines this far from a point"),
    "bearing": Tolerance(
        0, 16, 4, "sectors of 11.25 degrees", "admit lines whose direction differs by so much"
    ),
    "class": Tolerance(0, 7, 7, "classes", "admit lines whose class differs by so much"),
    "lowest": Tolerance(
        0, 7, 0, "classes", "admit roads less important than the reference allows by so much"
    ),
    "percent": Tolerance(0, 100, 30, "percent", "admit paths shorter or longer by this share"),
    "slack": Tolerance(
        0, 10_000, 300, "decimetres", "admit paths shorter or longer by so much again"
    ),
}
NUMBERS: dict[What, dict[str, Number]] = {
    "candidates": {},
    "match": {"page": Number(1, 1000, 10, "matchings", "list so many of each reference")},
    "places": {
        "apart": Number(
            0, 1_000_000, 750, "decimetres", "put matchings together that differ by so much at most"
        ),
        "within": Number(
            0,
            14_620,
            30,
            "penalty points",
            "list places that cost at most so much more than the best one",
        ),
        "look": Number(1, 1_000_000, 1000, "matchings", "look at so many"),
        "most": Number(1, 100, 10, "places", "list so many"),
    },
    "why": {"nearest": Number(0, 64, 8, "lines", "show so many near each point")},
}
"""The numbers of each question besides the tolerances."""
NEAR = Number(
    0, 100, 1, "thousandths", "tell another path of a leg that is longer by so much at most"
)
"""A number of `legs`, and of `lines`."""
NEAR_OF_PAGES = 15
"""That with which pages ask for other paths of the likeliest place."""
MOST_LINES = Number(1, 200_000, 20_000, "lines", "list so many")
ALL = ChainMap(TOLERANCES, *NUMBERS.values())
"""The table of all numbers. What asks, shows or checks one is made of its row: options of commands, of addresses and of the page, arguments in
Python, and what is said of them."""


class Option(NamedTuple):
    """What else can be set than a number: a word, which is the first one where it is left out; or, without words, whether it is given."""

    of: tuple[What, ...]
    """The questions that have it."""
    purpose: str
    words: tuple[str, ...] = ()

    @property
    def default(self) -> str | bool:
        """What it is where it is left out."""
        return self.words[0] if self.words else False

    def wanted_text(self, name: str) -> str:
        """What an option of that name is, for what isn't one."""
        return f"{name} is {' or '.join(self.words or ('True', 'False'))}"


OPTIONS = {
    "order": Option(
        ("places",),
        "sort places by their totals, or by how likely the sender meant them",
        ("total", "likely"),
    ),
    "detail": Option(
        ("candidates", "match", "places"), "say what speaks for and against each matching too"
    ),
    "shape": Option(
        ("candidates", "match", "places", "why"), "say where on the earth each of them lies too"
    ),
}
"""What else a question can be asked with, likewise. The program gets the words of those alone that aren't at their defaults."""
LIKELY: Mapping[str, Setting] = {"order": "likely", "detail": True}
"""How the places are asked for that are shown: the likeliest one first, with probabilities, and what speaks for and against them."""
LIST: Mapping[str, Setting] = {
    "within": NUMBERS["places"]["within"].greatest,
    "most": NUMBERS["places"]["most"].greatest,
    **LIKELY,
}
"""How all of them are asked for, up to 100."""
BLANKS = " \t\r\n"
CURSOR = re.compile("[0-9.:]+(@[0-9a-f]{64})?")
"""What a cursor looks like: of such texts the program says which is one."""
MOST_EDGE = 10**9
"""Microdegrees of an edge of a box."""
MOST_CURSOR = 166
"""Letters of the longest one."""
MOST_BYTES = 344
"""Of a reference without the blanks at its ends."""
OF_PANDAS = ("NAType", "NaTType")
"""The types of cells of pandas that have nothing."""
NO_LETTER = b"!"
"""Stands for what no record and no word of a command can have: it is no letter of base64 either."""


def record_text(reference: str) -> bytes:
    """A text as a part of one record, so that its answer or fault is that of the text itself.

    Blanks at the ends don't count. A line end within is no base64, and neither is a zero byte. A text that is too long is too long
    whatever it has, and a short one stands for it. Raises `TypeError` if it isn't a text.
    """
    if isinstance(reference, (bytes, bytearray)):
        raise TypeError(
            "a reference is a text in base64, not bytes: give data.decode() if they are that text, and "
            "base64.b64encode(data).decode() if they are its binary form"
        )
    if not isinstance(reference, str):
        raise TypeError(
            f"a reference is a text, not {type(reference).__name__}: of a column with other cells olr.locate gives each a fault"
        )
    return text_of_record(reference.encode("utf-8", errors="replace"))


def text_of_record(reference: bytes) -> bytes:
    """As `record_text`, of the bytes of a text."""
    text = reference.strip(BLANKS.encode())
    if len(text) > MOST_BYTES:
        return b"A" * (MOST_BYTES + 1)
    return text.replace(b"\n", NO_LETTER).replace(b"\0", NO_LETTER)


def many(call: str, items: Iterable[Item], instead: str) -> Iterable[Item]:
    """What a call takes many of. Raises `TypeError` for a text, whose items would be its letters, and for a table, whose items would be the
    names of its columns."""
    if isinstance(items, (str, bytes, bytearray)):
        raise TypeError(f"{call}, not one text: {instead}")
    if hasattr(items, "columns"):
        raise TypeError(f"{call}, not a table: give one of its columns")
    return items


def with_empty_texts(cells: Iterable[object]) -> Iterator[Any]:
    """Cells of a table, with an empty text for each that has nothing: None, NaN, or what pandas has for it."""
    return ("" if _is_missing(cell) else cell for cell in cells)


def _is_missing(cell: object) -> bool:
    """Whether a cell of a table has nothing. No module of others is needed to know its own."""
    if cell is None or type(cell).__name__ in OF_PANDAS:
        return True
    return isinstance(cell, float) and isnan(cell)


def number_words(name: str, value: int) -> list[str]:
    """The words of a number, which may be one of numpy. Raises `TypeError` for what isn't one, and `Fault` for one that is out of its
    range, as the program does."""
    return words_of_number(name, ALL[name], value)


def words_of_number(name: str, known: Number, value: int) -> list[str]:
    """As `number_words`, of a number that isn't in the table."""
    wanted = f"{known.wanted_text(name)}, not {value!r}"
    if isinstance(value, bool) or not issubclass(type(value), Integral):
        raise TypeError(wanted)
    number = int(value)
    if not known.least <= number <= known.greatest:
        raise Fault(known.fault_text(name, number), wanted)
    return [f"--{name}", str(number)]


def argument(name: str) -> str:
    """The name of a number as an argument in Python, where `class` is a word of the language: `class_`."""
    return f"{name}_" if iskeyword(name) else name


def all_tolerances(given: Mapping[str, int], others: Mapping[str, int]) -> dict[str, int]:
    """All tolerances by their names: those that were given as arguments, and the `others` by their names. Raises `TypeError` for what is
    no tolerance, as a call in Python does."""
    names = {argument(name): name for name in TOLERANCES}
    for name in given:
        if name not in names:
            raise TypeError(
                f"Map() got an unexpected keyword argument {name!r}: the tolerances are {', '.join(names)}"
            )
    return {name: given.get(key, others[name]) for key, name in names.items()}


def option_words(name: str, value: object) -> list[str]:
    """The words of an option: none where it is at its default. Raises `TypeError` for another type than it has, and `ValueError` for a word
    that isn't one of it."""
    known = OPTIONS[name]
    wanted = f"{known.wanted_text(name)}, not {value!r}"
    if not isinstance(value, type(known.default)):
        raise TypeError(wanted)
    if known.words and value not in known.words:
        raise ValueError(wanted)
    if value == known.default:
        return []
    return [f"--{name}", str(value)] if known.words else [f"--{name}"]


def options_for(what: What) -> dict[str, Option]:
    """The options of a question."""
    return {name: option for name, option in OPTIONS.items() if what in option.of}


def defaults_of(what: What) -> dict[str, Setting]:
    """What all numbers of a question besides the tolerances, and its options, are where they are left out."""
    found: dict[str, Setting] = {name: it.default for name, it in NUMBERS[what].items()}
    return found | {name: it.default for name, it in options_for(what).items()}


def likely(settings: Mapping[str, Setting]) -> dict[str, Setting]:
    """As what `places` are asked with is set, but the likeliest one first, and in detail."""
    return {**settings, **LIKELY}


def settings_of(what: What, given: Mapping[str, Setting]) -> dict[str, Setting]:
    """All numbers of a question besides the tolerances, those that weren't given at their defaults, and the options that were given."""
    numbers = {name: given.get(name, number.default) for name, number in NUMBERS[what].items()}
    return numbers | {name: given[name] for name in options_for(what) if name in given}


def words_of(what: What, given: Mapping[str, Setting]) -> list[str]:
    """The words of all numbers of a question: those that were given, and the others as they are where they are left out; and those of
    options. Raises `ValueError` for what is no question, `TypeError` for what it doesn't have, and as `number_words` and `option_words`.
    """
    if what not in NUMBERS:
        raise ValueError(f"{what!r} is no question: ask {', '.join(NUMBERS)}")
    names = [*NUMBERS[what], *options_for(what)]
    for name in given:
        if name not in names:
            raise TypeError(f"{what} has no {name}: it has {', '.join(names)}")
    return all_words(settings_of(what, given))


def all_words(settings: Mapping[str, Any]) -> list[str]:
    """The words of numbers and options, by their names. Raises as `number_words` and `option_words`."""
    return [
        word
        for name, value in settings.items()
        for word in (option_words if name in OPTIONS else number_words)(name, value)
    ]


def box_words(box: Sequence[int]) -> list[str]:
    """The words of a box: its least longitude and latitude, and its greatest ones, in microdegrees. Raises `TypeError` for what are no four
    whole numbers, and else the fault of the program."""
    wanted = f"a box is west, south, east and north, in microdegrees, not {box!r}"
    if len(box) != 4 or not all(isinstance(edge, Integral) for edge in box):
        raise TypeError(wanted)
    west, south, east, north = edges = [int(edge) for edge in box]
    if west > east or south > north or not -MOST_EDGE <= min(edges) <= max(edges) <= MOST_EDGE:
        raise Fault("BadNumber box", wanted)
    return ["--box", ",".join(map(str, edges))]


def cursor_of(text: str, name: str = "after") -> str:
    """A text that looks like a cursor, given by this name. Raises `TypeError` for what is no text, and else the fault of the program."""
    if not isinstance(text, str):
        raise TypeError(
            f"{name} is a cursor, such as the next of a page, not {type(text).__name__}"
        )
    if not CURSOR.fullmatch(text) or len(text) > MOST_CURSOR:
        raise Fault("BadCursor")
    return text
