"""The options that commands share: files and counts, the map and a box in it, the tolerances with their profile, the numbers of questions,
files of messages, pages."""

import click
import functools
from collections.abc import Callable, Mapping
from pathlib import Path
from typing import Any

from olr.asking.patience import PATIENCE, require_patience
from olr.messages.message import ALL, BASE64, FORMATS, KEY, REF, Base64, Format, Reading
from olr.model.asked_with import Asking
from olr.model.box import Box
from olr.model.profiles import DEFAULT_PROFILE, PROFILE, PROFILES, about_text
from olr.model.questions import NUMBERS, TOLERANCES, Number, What, argument

Command = Callable[..., None]
Option = Callable[[Command], Command]
FILE = click.Path(path_type=Path)
FOLDER = "a folder with nodes.csv, lines.csv and perhaps bans.csv"
OR_STORE = f"{FOLDER}, or a store of olr-tools regions"
ROWS = 2000
"""References that a page shows."""


def file_option(
    flag: str, metavar: str, text: str, name: str | None = None, required: bool = False
) -> Option:
    """An option that is a path. `text` is its help; `name` is that of the parameter, by default as the flag has it."""
    names = filter(None, (flag, name))
    return click.option(*names, metavar=metavar, required=required, type=FILE, help=text)


def flag_option(flag: str, text: str) -> Option:
    """An option that is given or not."""
    return click.option(flag, is_flag=True, help=text)


def count_option(
    flag: str,
    text: str,
    name: str | None = None,
    least: int = 1,
    greatest: int | None = None,
    default: int | None = None,
) -> Option:
    """An option that is a whole number in a range, None where it is left out and has no default. `name` is as in `file_option`."""
    return click.option(
        *filter(None, (flag, name)),
        type=click.IntRange(least, greatest),
        default=default,
        show_default=default is not None,
        metavar="N",
        help=text,
    )


def in_order(*options: Option) -> Option:
    """Several options as one, which help lists in this order."""

    def decorate(command: Command) -> Command:
        return functools.reduce(lambda made, option: option(made), reversed(options), command)

    return decorate


def map_option(metavar: str, text: str, name: str = "folder", flag: str = "--map") -> Option:
    """The option of a map."""
    return file_option(flag, metavar, text, name, required=True)


MAP = map_option("DIR|STORE", f"The map: {OR_STORE}.")


class BoxParameter(click.ParamType):
    """A box `W,S,E,N` in degrees."""

    name = "box"

    def convert(
        self, value: object, param: click.Parameter | None, ctx: click.Context | None
    ) -> Box:
        """The box of a text. Ends with a usage error if it isn't one."""
        if isinstance(value, Box):
            return value
        try:
            west, south, east, north = (float(edge) for edge in str(value).split(","))
        except ValueError:
            self.fail("four numbers are needed, in degrees: W,S,E,N, such as 6.0,49.5,6.2,49.7")
        if not (-180 <= west < east <= 180 and -90 <= south < north <= 90):
            self.fail("W has to be less than E, S less than N, and all within 180 and 90 degrees")
        return Box(*(round(edge * 1e6) for edge in (west, south, east, north)))


def box_option(done: str, otherwise: str) -> Option:
    """The option `--bbox`, a `box` or None. Its help says what is `done`, and what is so by default."""
    return click.option(
        "--bbox",
        "box",
        metavar="W,S,E,N",
        type=BoxParameter(),
        help=f"{done}, by its west, south, east and north edge in degrees: W and E from -180 to 180, S and N from -90 to 90, such as "
        f"6.0,49.5,6.2,49.7. By default {otherwise}.",
    )


def out_option(metavar: str, text: str, name: str = "file") -> Option:
    """The option `--out` of what a command writes."""
    return file_option("--out", metavar, text, name, required=True)


def force_option(
    what: str = "the file of --out, if it is there", refused: str = "a file that is there"
) -> Option:
    """The option `--force`, which replaces something, and what is refused without it."""
    return flag_option("--force", f"Replace {what}. By default {refused} is refused.")


def question_option(what: What, done: str, text: str) -> Option:
    """A flag that asks another question, as a parameter of its name. Matchings are what is `done` without it."""
    return flag_option(f"--{what}", f"{text}. By default its matchings are {done}.")


def one_question(flags: Mapping[What, bool]) -> What:
    """The question whose flag is given, or else `match`. Raises `UsageError` for several."""
    given = [what for what, is_given in flags.items() if is_given]
    if len(given) > 1:
        named = " and ".join(f"--{what}" for what in given)
        raise click.UsageError(f"{named} are several questions: give one of them")
    return given[0] if given else "match"


def number_options(numbers: Mapping[str, Number], before: str = "") -> Option:
    """Options by the names of numbers: None where one is left out. `before` stands before their help. A number that is out of its
    range is a `Fault` of the map that is asked."""
    return in_order(*(_number_option(name, it, before) for name, it in numbers.items()))


def _number_option(name: str, number: Number, before: str) -> Option:
    text = f"{before}{number.purpose}: {number.range_text()}."
    help = text[0].upper() + text[1:]
    return click.option(f"--{name}", argument(name), type=click.INT, metavar="N", help=help)


tolerance_options = in_order(
    click.option(
        f"--{PROFILE}",
        type=click.Choice(list(PROFILES)),
        default=DEFAULT_PROFILE,
        show_default=True,
        help=f"The tolerances that aren't given: {'; '.join(map(about_text, PROFILES))}.",
    ),
    number_options(TOLERANCES),
)
"""The tolerances by their names, None where one is left out, and their `profile`."""
map_options = in_order(MAP, tolerance_options)
"""The map's `folder`, and the tolerances."""
places_options = number_options(NUMBERS["places"])
"""The numbers of `places`."""


def patience_option(then: str = "Then the command ends, and names the reference.") -> Option:
    """The option `--patience`, whose help says what happens `then`."""
    return click.option(
        "--patience",
        type=float,
        default=PATIENCE,
        callback=_patience,
        metavar="SECONDS",
        help=f"How long the program may answer nothing: above 0 seconds, by default {PATIENCE:g}. {then}",
    )


def _patience(context: click.Context, parameter: click.Parameter, seconds: float) -> float:
    """A patience. Raises `BadParameter` for what is none."""
    try:
        require_patience(seconds)
    except ValueError as error:
        raise click.BadParameter(str(error), context, parameter) from error
    return seconds


confidence_option = file_option(
    "--confidence",
    "FILE",
    "The file by which places have probabilities: olr-tools calibrate makes one for your map and your feed. By default it is one "
    "for the profile feed and maps that differ somewhat: with other tolerances there are no probabilities.",
)
"""The file of a confidence, None where it is left out."""


def reading_options(command: Command) -> Command:
    """The options of a file of messages, as one parameter `reading`."""

    @click.option(
        "--format",
        "kind",
        type=click.Choice(FORMATS),
        help="The format of the file of messages. By default it is detected by the first line.",
    )
    @_member_option("--ref", "reference", REF)
    @_member_option("--key", "key", f"{KEY}, if there is one")
    @click.option(
        "--base64",
        type=click.Choice(BASE64),
        default=BASE64[0],
        show_default=True,
        help="The base64 of the references in the file of messages: url has - and _ in place of + and /, and needs no = at the end.",
    )
    @functools.wraps(command)
    def reading(
        *words: Any,
        kind: Format | None,
        ref: str | None,
        key: str | None,
        base64: Base64,
        **others: Any,
    ) -> None:
        command(*words, reading=Reading(kind, ref, key, base64=base64), **others)

    return reading


def keep_option(command: Command) -> Command:
    """The option `--keep`. It goes into the parameter `reading`, and so stands below `reading_options`."""

    @click.option(
        "--keep",
        metavar="NAME",
        multiple=True,
        help="A column of the file of messages, or a member, as of --key, or an element or @attribute of XML, to write behind the columns of "
        "the answers. Give it once for each, or --keep all for all of them. By default none are written.",
    )
    @functools.wraps(command)
    def keeping(*words: Any, reading: Reading, keep: tuple[str, ...], **others: Any) -> None:
        names = tuple(dict.fromkeys(keep))
        if len(names) > 1 and ALL[0] in names:
            raise click.UsageError("--keep all keeps all: leave out the others")
        command(*words, reading=reading._replace(keep=names), **others)

    return keeping


def _member_option(flag: str, what: str, default: str) -> Option:
    text = (
        f"The column of the file of messages, or the member, that has the {what}, such as a.b for a member within another, or rows[].a "
        f"for that of each element of an array. By default {default}."
    )
    return click.option(flag, metavar="NAME", help=text)


def rows_option(what: str) -> Option:
    """How many references a page has."""
    text = f"How many references {what} at most: 1 or more. All are counted."
    return count_option("--rows", text, default=ROWS)


def tiles_option(where: str = "") -> Option:
    """The option `--tiles`, a URL or None."""
    text = (
        f"The URL of tiles to draw behind the map's lines{where}, with {{z}}, {{x}} and {{y}} in it. By default none are, and no network is "
        "needed."
    )
    return click.option("--tiles", metavar="URL", help=text)


page_options = in_order(
    out_option("PAGE.html", "The page to write. Folders above are made as needed."),
    force_option(),
    tiles_option(),
)
"""The page to write, `file` and `force`, and `tiles`."""


def live_option(what: str, instead: str) -> Option:
    """The flag `--live`: `what` can be asked again on the page, which is without it `instead`."""
    return flag_option(
        "--live",
        f"Write a page that answers by itself: it has the program and what it needs of the map, so that {what} can be asked again with other "
        f"tolerances, without a network. By default {instead}.",
    )


def of_question(question: What, options: Mapping[str, Any]) -> Asking:
    """The numbers of a question, by the options of a command. Raises `UsageError` for a number of another question."""
    tolerances, numbers = {}, {}
    for name, value in options.items():
        if value is None or name == PROFILE:
            continue
        if name.removesuffix("_") in TOLERANCES:
            tolerances[name] = value
        elif name in NUMBERS[question]:
            numbers[name] = value
        else:
            other = next(what for what, names in NUMBERS.items() if name in names)
            raise click.UsageError(f"--{name} is for {other}, not for {question}")
    return Asking(question, options[PROFILE], tolerances, numbers)
