"""The option `--shift`, by which points of references are moved before anything is asked about them."""

import click
import math
from pathlib import Path
from typing import Literal

from olr.client.map_client import Map
from olr.confidence.messages import read_line_references
from olr.confidence.shift import Shift, shift_found
from olr.messages.message import Reading
from olr.messages.opening import STANDARD_INPUT, is_read_twice

AUTO: Literal["auto"] = "auto"
Wanted = Shift | Literal["auto"] | None
MOST = 1000.0
"""Metres to either side."""
ADVICE = f"match --shift {AUTO} moves the references so"
"""What to do about a shift."""


class ShiftParameter(click.ParamType):
    """A shift `EAST,NORTH` in metres, or `auto`."""

    name = "shift"

    def convert(
        self, value: object, param: click.Parameter | None, ctx: click.Context | None
    ) -> Wanted:
        """The shift of a text. Ends with a usage error if it isn't one."""
        if isinstance(value, Shift) or value == AUTO:
            return AUTO if value == AUTO else Shift(*value)
        try:
            east, north = (float(metres) for metres in str(value).split(","))
        except ValueError:
            east = north = math.nan
        if not max(abs(east), abs(north)) <= MOST:
            most = f"{MOST:g}"
            self.fail(f"{AUTO} or two numbers are needed, in metres from -{most} to {most}")
        return Shift(east, north)


shift_option = click.option(
    "--shift",
    metavar=f"EAST,NORTH|{AUTO}",
    type=ShiftParameter(),
    help="Move the points of all references so many metres to the east and to the north before they are asked, to the nearest step of their "
    f"format: 2.4 m. {AUTO} takes what the line references show, if there is a shift for certain. By default none are moved.",
)


def shift_for(asked: Map, file: Path, reading: Reading, wanted: Wanted) -> Shift | None:
    """By how much the references of a file are to be moved: None for not at all. Raises `UsageError` for a file that can't be read twice
    where that is needed, and `ToolError`."""
    if wanted != AUTO:
        return wanted
    if not is_read_twice(file) and (file == STANDARD_INPUT or file.exists()):
        raise click.UsageError(
            f"--shift {AUTO} reads FILE twice: name a file, or give EAST,NORTH in metres"
        )
    return shift_found(asked, read_line_references(file, reading, {}, 1).texts())


def line_of(wanted: Wanted, shift: Shift | None) -> str:
    """The line of a summary on how references were moved; an empty text if nobody asked for it."""
    if shift is None:
        return "points not moved: no shift is certain" if wanted == AUTO else ""
    return f"points moved by {shift}: --shift {shift.east:.1f},{shift.north:.1f}"
