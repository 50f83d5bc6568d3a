"""Profiles: tolerances that go together, by a name. Single tolerances that are given win over those of a profile."""

import inspect
from collections.abc import Callable, Mapping
from typing import Any, NamedTuple, TypeVar

from olr.model.questions import TOLERANCES, argument

Call = TypeVar("Call", bound=Callable[..., Any])

PROGRAM, FEED = "program", "feed"
DEFAULT_PROFILE = FEED
"""The profile where none is named, in all that Python asks. The program `olr` itself has its own numbers, those of `program`."""
PROFILE = "profile"
"""The name of the option, of the argument in Python, and of the option of an address."""


class Profile(NamedTuple):
    """Tolerances that go together."""

    purpose: str
    own: Mapping[str, int]
    """Those that aren't the program's own defaults, by the names of its options."""


PROFILES: Mapping[str, Profile] = {
    PROGRAM: Profile("the defaults of the program olr", {}),
    FEED: Profile(
        "for messages that were made on another vendor's map",
        {"radius": 75, "bearing": 6, "lowest": 4, "percent": 15},
    ),
}


def tolerances_of(profile: str) -> dict[str, int]:
    """All tolerances of a profile, by the names of the program's options. Raises `ValueError` for what is no profile."""
    if profile not in PROFILES:
        raise ValueError(f"{profile!r} is no profile: {names_text()}")
    own = PROFILES[profile].own
    return {name: own.get(name, number.default) for name, number in TOLERANCES.items()}


def resolved(profile: str, given: Mapping[str, int]) -> dict[str, int]:
    """All tolerances, by the names of the program's options: those that were given, by these names or those of arguments in Python, and
    the others of the profile. Raises as `tolerances_of`."""
    by_name = {name.removesuffix("_"): value for name, value in given.items()}
    return {name: by_name.get(name, value) for name, value in tolerances_of(profile).items()}


def others_than(profile: str, tolerances: Mapping[str, int]) -> dict[str, int]:
    """Those of all tolerances that aren't as the profile has them, by the names of the program's options. Raises as `tolerances_of`."""
    usual = tolerances_of(profile)
    return {name: value for name, value in tolerances.items() if value != usual[name]}


def as_arguments(tolerances: Mapping[str, int]) -> dict[str, int]:
    """Tolerances by the names that they have as arguments of `olr.Map`."""
    return {argument(name): value for name, value in tolerances.items()}


def other_profile(profile: str) -> str:
    """The profile to try where one has no place for a reference."""
    return PROGRAM if profile == FEED else FEED


def own_text(profile: str) -> str:
    """What a profile has that the program's own defaults don't: `radius 75, bearing 6, lowest 4, percent 15`."""
    own = PROFILES[profile].own
    return ", ".join(f"{name} {value}" for name, value in own.items())


def about_text(profile: str) -> str:
    """What a profile is, in a sentence without an end."""
    purpose, own = PROFILES[profile].purpose, own_text(profile)
    return f"{profile} is {purpose}" + (f": {own}, all else as program" if own else "")


def names_text() -> str:
    """Which profiles there are."""
    return f"the profiles are {', '.join(PROFILES)}"


def with_tolerances(call: Call) -> Call:
    """A call that has tolerances as its `**` arguments: help shows each by its name, with its number in the default profile, and what it is."""
    signature, kind = inspect.signature(call), inspect.Parameter.KEYWORD_ONLY
    others = list(signature.parameters.values())[:-1]
    tolerances = [
        inspect.Parameter(argument(name), kind, default=value, annotation=int)
        for name, value in tolerances_of(DEFAULT_PROFILE).items()
    ]
    lines = [
        f"`{argument(name)}`: {number.purpose}: {number.range_text()}."
        for name, number in TOLERANCES.items()
    ]
    call.__doc__ = "\n".join([f"{inspect.getdoc(call) or ''}\n", *lines])
    setattr(call, "__signature__", signature.replace(parameters=[*others, *tolerances]))
    return call
