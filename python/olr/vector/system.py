"""The coordinate reference system of a layer: from its coordinates to degrees (WGS 84), and where these aren't on a map."""

import math
import numpy as np
from collections.abc import Sequence
from dataclasses import dataclass
from pathlib import Path
from pyproj import CRS, Transformer
from pyproj.exceptions import CRSError, ProjError

from olr.arrays import Floats
from olr.errors import ToolError
from olr.model.box import Box
from olr.model.road_map import GREATEST_LAT

Area = tuple[float, float, float, float]
"""West, south, east and north, in the units of the file."""
Vertex = Sequence[float]
"""In the units of the file."""


@dataclass(frozen=True)
class System:
    """A reference system, by its name."""

    name: str
    transformer: Transformer

    @classmethod
    def of(cls, file: Path, wkt: str, crs: str | None) -> "System":
        """The system that a user names, else that of the file. Raises `ToolError` if there is none, or if it isn't known."""
        if not wkt and crs is None:
            raise ToolError(
                f"{file} doesn't say its coordinate reference system: name it, such as --crs EPSG:25832"
            )
        try:
            system = CRS.from_user_input(crs) if crs is not None else CRS.from_wkt(wkt)
            return cls(system.name, Transformer.from_crs(system, "EPSG:4326", always_xy=True))
        except (CRSError, ProjError) as error:
            named = crs if crs is not None else f"that of {file}"
            raise ToolError(f"the coordinate reference system isn't known: {named}") from error

    def in_degrees(self, vertices: Floats) -> Floats:
        """Longitude and latitude of vertices, a row for each. They are infinite where the system has no such place."""
        lon, lat = self.transformer.transform(vertices[:, 0], vertices[:, 1])
        result: Floats = np.stack([lon, lat], axis=1)
        return result

    def area(self, box: Box) -> Area | None:
        """A part of the plane of the file that holds the box; None if there is none."""
        west, south, east, north = (edge / 1e6 for edge in box)
        bounds = self.transformer.transform_bounds(west, south, east, north, direction="INVERSE")
        return bounds if all(map(math.isfinite, bounds)) else None


@dataclass
class Strays:
    """Vertices by which one may see that coordinates aren't in the system that they are read by."""

    outside: Vertex | None = None
    """Of the first line string outside the box."""
    nowhere: Vertex | None = None
    """Of the first one that isn't on the earth up to latitude 80."""

    def doubt(self, system: System, found: bool) -> str:
        """What to look at, and what to do; an empty text if there is no doubt. `found`: whether there is any road."""
        vertex = self.nowhere
        if vertex is None and self.outside is not None and not found:
            degrees = system.in_degrees(np.array([self.outside[:2]] * 2))
            vertex = self.outside if why_not_on_map(degrees) else None
        if vertex is None:
            return ""
        return (
            f"in {system.name} coordinates such as {vertex[0]:.12g} {vertex[1]:.12g} are beyond latitude 80 or not on the earth: "
            "if that isn't their reference system, name it by --crs, such as --crs EPSG:25832"
        )


def why_not_on_map(degrees: Floats) -> str:
    """Why a line string can't be on a map, as a reason for the counts; an empty text if it can."""
    if not np.isfinite(degrees).all():
        return "line strings with coordinates outside the reference system"
    if np.abs(degrees[:, 1]).max() > GREATEST_LAT / 1e6:
        return "line strings beyond latitude 80"
    if np.abs(degrees[:, 0]).max() > 180.0:
        return "line strings beyond longitude 180"
    return ""
