"""OpenStreetMap files made by hand, for tests."""

import osmium
from collections.abc import Mapping, Sequence
from pathlib import Path
from xml.sax.saxutils import quoteattr


class Drawing:
    """A file near the equator. Nodes are given by their ids, with positions in microdegrees: 1000 are 111 m."""

    def __init__(self, nodes: Mapping[int, tuple[float, float]]) -> None:
        self._nodes = [
            f'<node id="{id}" version="1" lon="{lon / 1e6:.7f}" lat="{lat / 1e6:.7f}"/>'
            for id, (lon, lat) in nodes.items()
        ]
        self._ways: list[str] = []
        self._relations: list[str] = []

    def way(
        self, id: int, nodes: Sequence[int], highway: str | None = "residential", **tags: str
    ) -> None:
        """Adds a way. In the names of tags `__` stands for a colon. Without a highway it is none."""
        members = [f'<nd ref="{node}"/>' for node in nodes]
        kind = {} if highway is None else {"highway": highway}
        lines = [f'<way id="{id}" version="1">', *members, *_tags(kind | tags)]
        self._ways += [*lines, "</way>"]

    def restriction(
        self,
        id: int,
        members: Sequence[tuple[str, str, int]],
        type: str = "restriction",
        **tags: str,
    ) -> None:
        """Adds a relation with members of a role, a type and an id."""
        lines = [
            f'<member role="{role}" type="{kind}" ref="{ref}"/>' for role, kind, ref in members
        ]
        head = f'<relation id="{id}" version="1">'
        self._relations += [head, *lines, *_tags({"type": type} | tags), "</relation>"]

    def turn(self, kind: str, source: int, via: int, target: int, **tags: str) -> None:
        """Adds a turn restriction from a way over a node to a way."""
        members = [("from", "way", source), ("via", "node", via), ("to", "way", target)]
        self.restriction(1 + len(self._relations), members, restriction=kind, **tags)

    def write(self, file: Path) -> Path:
        """Writes the file, and answers its path."""
        parts = ['<osm version="0.6">', *self._nodes, *self._ways, *self._relations, "</osm>"]
        file.write_text("\n".join(parts) + "\n", encoding="utf-8")
        return file


def write_pbf(drawn: Path, file: Path, sorting: str = "") -> Path:
    """Writes a drawn file as PBF, which says of itself how it is sorted. Its objects of each type are in a block of their own. One that is
    called .osh.pbf says that it is a history."""
    header = osmium.io.Header()
    if sorting:
        header.set("sorting", sorting)
    writer = osmium.SimpleWriter(str(file), 1 << 20, header)

    class Copying(osmium.SimpleHandler):
        """Hands on what it comes upon."""

        def node(self, node: osmium.osm.Node) -> None:
            writer.add_node(node)

        def way(self, way: osmium.osm.Way) -> None:
            writer.add_way(way)

        def relation(self, relation: osmium.osm.Relation) -> None:
            writer.add_relation(relation)

    Copying().apply_file(str(drawn))
    writer.close()
    return file


def _tags(tags: dict[str, str]) -> list[str]:
    """The elements of tags."""
    return [
        f"<tag k={quoteattr(name.replace('__', ':'))} v={quoteattr(value)}/>"
        for name, value in tags.items()
    ]
