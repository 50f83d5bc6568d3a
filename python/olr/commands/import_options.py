"""The options that the commands of imports share."""

import click

from olr.commands import options
from olr.commands.u_turns import dead_ends_option, u_turns_option
from olr.model.sources import require_columns


def _kept_fields(
    _ctx: click.Context, _option: click.Parameter, keep: tuple[str, ...]
) -> tuple[str, ...]:
    """The fields of `--keep`. Raises `ToolError` if they can't be columns of `ids.csv`."""
    require_columns(keep, "--keep")
    return keep


import_options = options.in_order(
    options.out_option("DIR", "The folder to write the map to: a new or an empty one.", "folder"),
    options.force_option(
        "the map in the folder of --out. Its other files stay", "a folder that isn't empty"
    ),
    options.box_option("Take only what reaches into a box", "the whole file is taken"),
    u_turns_option,
    dead_ends_option,
    click.option(
        "--keep",
        metavar="FIELD",
        multiple=True,
        callback=_kept_fields,
        help="Keep a field of the file, such as surface, as a column of ids.csv: a tag of OpenStreetMap, or a field of the layer. May be "
        "given several times. By default the ids and names of roads alone are kept.",
    ),
)
"""The options of all imports: `folder`, `force`, `box`, `u_turns`, `dead_ends` and `keep`."""
