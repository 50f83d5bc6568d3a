"""With which numbers a question is asked: as options, as a text, and as the command of the program `olr` that asks so."""

import shlex
from collections.abc import Mapping
from pathlib import Path
from typing import Any, NamedTuple

from olr.model.map_folder import store_of
from olr.model.profiles import PROFILE, as_arguments, other_profile, others_than, resolved
from olr.model.questions import ALL, NUMBERS, TOLERANCES, Setting, What, all_words, defaults_of


def numbers_text(profile: str, tolerances: Mapping[str, int], numbers: Mapping[str, int]) -> str:
    """All tolerances with their profile, and other numbers of a question: `radius 75 m, ..., profile feed, page 10 matchings`. Tolerances
    that aren't given are those of the profile, and those that aren't as it has them are named."""
    asked = resolved(profile, tolerances)
    others = others_than(profile, asked)
    but = f" but for {' and '.join(others)}" if others else ""
    return ", ".join(
        [
            *(ALL[name].value_text(name, value) for name, value in asked.items()),
            f"{PROFILE} {profile}{but}",
            *(ALL[name].value_text(name, value) for name, value in numbers.items()),
        ]
    )


def asked_with_line(text: str) -> str:
    """The line of a summary that has such a text."""
    return f"asked with: {text}"


def all_of_question(question: What, numbers: Mapping[str, int]) -> dict[str, int]:
    """All numbers of a question besides the tolerances: those that were given, and the others at their defaults."""
    return {name: numbers.get(name, number.default) for name, number in NUMBERS[question].items()}


def is_for_program(folder: Path) -> bool:
    """Whether the program reads a map: it reads no store."""
    return store_of(folder) is None


def name_for_program(folder: Path) -> str | None:
    """The name of a map's folder, without those above, as a page for others has it. None for a store, which the program doesn't read."""
    return folder.resolve().name if is_for_program(folder) else None


def command_text(
    question: What, reference: str, map_name: str | None, settings: Mapping[str, Setting]
) -> str:
    """The command of `olr` that asks about a reference so, for a shell: with the numbers and options of the question and the tolerances that
    aren't the program's defaults. An empty text if the program doesn't read the map.
    """
    if map_name is None:
        return ""
    usual = {name: number.default for name, number in TOLERANCES.items()} | defaults_of(question)
    others = {name: settings[name] for name, it in usual.items() if settings.get(name, it) != it}
    words = ["olr", question, reference.strip(), "--map", map_name]
    return shlex.join([*words, *all_words(others)])


class Asking(NamedTuple):
    """With which numbers a question is asked."""

    question: What
    profile: str
    given: Mapping[str, int]
    """The tolerances that weren't left out, by their names as arguments; and so the other numbers."""
    numbers: dict[str, int]

    @property
    def tolerances(self) -> dict[str, Any]:
        """All tolerances, by their names as arguments of `olr.Map`."""
        return as_arguments(resolved(self.profile, self.given))

    def other(self) -> tuple[str, dict[str, Any]] | None:
        """The other profile, and all tolerances with it, by their names as arguments: None if they are the same ones."""
        profile = other_profile(self.profile)
        found = as_arguments(resolved(profile, self.given))
        return None if found == self.tolerances else (profile, found)

    def all_numbers(self) -> dict[str, int]:
        """All tolerances and other numbers, by the names of the program's options."""
        return {
            **resolved(self.profile, self.given),
            **all_of_question(self.question, self.numbers),
        }

    def text(self) -> str:
        """What a page says of it: all numbers."""
        numbers = all_of_question(self.question, self.numbers)
        return numbers_text(self.profile, self.given, numbers)

    def line(self, more: str = "") -> str:
        """What a summary says of it, and `more` behind it: all tolerances, and the other numbers that were given."""
        return asked_with_line(numbers_text(self.profile, self.given, self.numbers) + more)
