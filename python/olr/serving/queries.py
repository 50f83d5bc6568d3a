"""The query of a URL as a question. Names, ranges and defaults are those of the commands: `olr.model.questions` and `olr.model.profiles` have
them."""

import re
from collections.abc import Mapping
from functools import lru_cache
from typing import NamedTuple
from urllib.parse import unquote_to_bytes

from olr.asking.exchange import Asked
from olr.model.fault import Fault
from olr.model.profiles import DEFAULT_PROFILE, PROFILE, PROFILES, names_text, tolerances_of
from olr.model.questions import (
    ALL,
    NUMBERS,
    OPTIONS,
    Number,
    What,
    all_words,
    cursor_of,
    options_for,
    record_text,
)
from olr.serving.problems import bad_request, of_fault

REF, AFTER = "ref", "after"
NUMBER = re.compile("[0-9]{1,7}", re.ASCII)
FLAGS = ("false", "true")
MOST_ASKED = 1024
"""So many combinations of options are remembered."""


class Question(NamedTuple):
    """A question about one reference."""

    asked: Asked
    text: bytes
    """The reference, as a record has it."""
    after: str | None
    """A cursor, behind which a page is asked for."""


Options = dict[str, str]


def options_of(query: bytes) -> Options:
    """The options of a query. A plus sign stands for itself, as base64 has it: it isn't a blank, as it is in forms. Raises `Problem` for
    an option that is given twice, or isn't UTF-8."""
    options: Options = {}
    for item in query.split(b"&") if query else ():
        name, _, value = item.partition(b"=")
        key = _text(name)
        if key in options:
            raise bad_request(f"{key!r} is given twice")
        options[key] = _text(value)
    return options


def _text(escaped: bytes) -> str:
    """A text that is escaped in a URL."""
    try:
        return (unquote_to_bytes(escaped) if b"%" in escaped else escaped).decode()
    except UnicodeDecodeError as error:
        raise bad_request("the query isn't UTF-8") from error


def question_of(what: What, options: Options, most_look: int) -> Question:
    """The question of an address. Raises `Problem`."""
    ref = reference_of(options)
    after = options.pop(AFTER, None) if what == "match" else None
    if after is not None:
        try:
            after = cursor_of(after)
        except Fault as fault:
            raise of_fault(fault) from fault
    return Question(asked_of(what, options, most_look), record_text(ref), after)


def reference_of(options: Options) -> str:
    """Takes the reference out of options. Raises `Problem` if there is none."""
    try:
        return options.pop(REF)
    except KeyError:
        raise bad_request("ref is missing: the text of a reference, in base64") from None


def asked_of(
    what: What, options: Mapping[str, str], most_look: int, numbers_alone: bool = False
) -> Asked:
    """What the options of an address ask for: one may have those of a question that are numbers alone. Raises `Problem` for one that isn't one,
    or is out of its range."""
    return _asked(what, tuple(options.items()), most_look, numbers_alone)


def numbers_of(what: What, most_look: int) -> dict[str, Number]:
    """The numbers of a question besides the tolerances, as a server admits them whose greatest `look` is `most_look`."""
    numbers = NUMBERS[what]
    return numbers | {name: numbers[name].at_most(most_look) for name in numbers if name == "look"}


@lru_cache(maxsize=MOST_ASKED)
def _asked(
    what: What, options: tuple[tuple[str, str], ...], most_look: int, numbers_alone: bool
) -> Asked:
    given = dict(options)
    profile = given.pop(PROFILE, DEFAULT_PROFILE)
    if profile not in PROFILES:
        raise bad_request(f"{profile!r} is no profile: {names_text()}")
    admitted = numbers_of(what, most_look)
    numbers = tolerances_of(profile) | {name: it.default for name, it in admitted.items()}
    others = {} if numbers_alone else {name: it.default for name, it in options_for(what).items()}
    for name, value in given.items():
        if name in numbers:
            numbers[name] = _number(name, value)
        elif name in others:
            others[name] = _other(name, value)
        else:
            known = [REF, *([AFTER] if what == "match" else []), PROFILE, *numbers, *others]
            raise bad_request(f"{name!r} is no option of /{what}: it has {', '.join(known)}")
    for name, number in admitted.items():
        if numbers[name] > number.greatest:
            raise bad_request(f"{name} is {number.greatest:,} at most on this server")
    return Asked(what, tuple(all_words({**numbers, **others})))


def _number(name: str, value: str) -> int:
    """A number that is in its range. Raises `Problem`."""
    number = ALL[name]
    if not NUMBER.fullmatch(value) or not number.least <= int(value) <= number.greatest:
        raise bad_request(number.wanted_text(name))
    return int(value)


def _other(name: str, value: str) -> str | bool:
    """What an option is that is no number: one of its words, or `true` or `false`. Raises `Problem`."""
    words = OPTIONS[name].words
    if value not in (words or FLAGS):
        raise bad_request(f"{name} is {' or '.join(words or FLAGS)}")
    return value if words else value == FLAGS[True]


def require_no_options(options: Options) -> None:
    """Raises `Problem` if an option is left."""
    for name in options:
        raise bad_request(f"{name!r} is no option of this address")
