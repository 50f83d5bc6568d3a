"""What tests of stores share: small maps, and what is in a store."""

from pathlib import Path

from asking import draw_map
from olr.arrays import Integers
from olr.regions.plane import Disc
from olr.regions.store import Store

NODES = "id,lon,lat\n1,0,0\n2,1000,-5\n"
LINES = "id,from,to,class,form,length,shape\n7,1,2,3,3,1113,300 1;600 2\n8,2,1,3,3,1113,\n"
BANS = "from,to\n7,8\n"


def folder_of(place: Path, nodes: str = NODES, lines: str = LINES, bans: str = BANS) -> Path:
    """A map of these files."""
    place.mkdir(parents=True, exist_ok=True)
    for name, text in (("nodes.csv", nodes), ("lines.csv", lines), ("bans.csv", bans)):
        (place / name).write_text(text)
    return place


def all_lines(store: Store) -> Integers:
    """All lines of a store: those that meet a disc of the size of the earth."""
    return store.lines_meeting([Disc(0.0, 0.0, 1e8, 1752)])


def map_with_bans(folder: Path) -> Path:
    """A drawn map with 20 bans."""
    whole = draw_map(folder, 200, 400)
    rows = [row.split(",") for row in (whole / "lines.csv").read_text().splitlines()[1:]]
    turns = [f"{a[0]},{b[0]}" for a in rows for b in rows if a[2] == b[1] and a[1] != b[2]]
    (whole / "bans.csv").write_text("\n".join(["from,to", *turns[:20]]) + "\n")
    return whole


def texts(folder: Path) -> dict[str, str]:
    """The files of a map."""
    return {name: (folder / name).read_text() for name in ("nodes.csv", "lines.csv", "bans.csv")}
