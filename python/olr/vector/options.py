"""What a user may choose."""

from dataclasses import dataclass
from pathlib import Path

from olr.importing.u_turns import DEAD_ENDS, DeadEnds, UTurns
from olr.model.box import Box
from olr.vector.fields import Fields

TOLERANCE = 0.5
"""In metres."""


@dataclass(frozen=True)
class Options:
    """How a layer becomes a map."""

    fields: Fields
    layer: str | None = None
    """The layer, or the only one of the file."""
    crs: str | None = None
    """A coordinate reference system in place of that of the file."""
    box: Box | None = None
    """The part of the file to take, or all of it."""
    mapping: Path | None = None
    """The table of values, or the usual meanings."""
    tolerance: float = TOLERANCE
    """Ends of roads that lie so near to each other, or to another road, meet. In metres."""
    join_vertices: bool = False
    """Whether roads are joined where they have a vertex in common between their ends."""
    u_turns: UTurns = "dead-ends"
    """Where turning back is banned."""
    dead_ends: DeadEnds = DEAD_ENDS
    """What becomes of turning back at dead ends, where `u_turns` is dead-ends."""
