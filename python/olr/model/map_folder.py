"""A map as files in a folder: `nodes.csv`, `lines.csv`, `bans.csv`, `ids.csv` and `import.json`. A map that `olr` can't read because
it is too large has `map.gpkg` in place of the first three: see `regions`.

No file is ever half written: all are made in another folder, beside the map's or in it, and then moved: see `outputs`.
"""

import csv
import json
import os
from collections.abc import Iterable, Iterator, Mapping, Sequence
from contextlib import ExitStack, contextmanager
from itertools import chain, islice
from pathlib import Path
from typing import Any, Callable, TypeVar

from olr.errors import ToolError, readable
from olr.model.records import read_records
from olr.model.road_map import Ban, Line, Node, Position, RoadMap
from olr.model.sources import IDS, write_origins
from olr.model.values import MOST_DIGITS, signed_of
from olr.outputs import folder_beside, require_free_file, sync, whole_file, writing
from olr.progress import Advance, watched

NODES, LINES, BANS, IMPORT = "nodes.csv", "lines.csv", "bans.csv", "import.json"
STORE = "map.gpkg"
STORE_SUFFIX = ".gpkg"
FILES = (LINES, BANS, IDS, IMPORT, STORE, NODES)
"""Of a map's folder. The nodes come last."""
NODES_HEADER = ("id", "lon", "lat")
LINES_HEADER = ("id", "from", "to", "class", "form", "length", "shape")
BANS_HEADER = ("from", "to")

WANTED = f"name a folder with {NODES} and {LINES}"
"""What to do where a file of a map isn't there."""

ROWS = 10_000
"""So many records are read at a time."""
Row = TypeVar("Row")
Write = Callable[[RoadMap, Path], None]
"""Writes the files of nodes, lines and bans into a folder."""


def files_read(folder: Path) -> list[Path]:
    """The files of a folder that `olr` and other commands read as a map. That of the bans may be missing."""
    return [folder / name for name in (NODES, LINES, BANS)]


def inputs_of(path: Path) -> list[Path]:
    """The files that are read of a map: those of its folder, or its store."""
    store = store_of(path)
    return files_read(path) if store is None else [store]


def store_of(path: Path) -> Path | None:
    """The store that a path names: a file, or that of a folder to which an import wrote one. None for a folder with a map's files, or
    for what isn't there."""
    with readable(path):
        if path.is_dir():
            there = (path / STORE).is_file() and not (path / NODES).exists()
            return path / STORE if there else None
        return path if path.is_file() or path.suffix.lower() == STORE_SUFFIX else None


def require_free(folder: Path, force: bool, inputs: Iterable[Path] = ()) -> None:
    """Raises `ToolError` if a map can't be written to that folder: it is a file, or it is there and isn't empty. With `force` a
    folder may hold something: a map there is replaced, unless one of its files is an input, and other files stay.
    """
    if folder.exists() and not folder.is_dir():
        raise ToolError(f"{folder} is a file: name a folder")
    with readable(folder):
        holds = folder.exists() and bool(os.listdir(folder))
    if holds and not force:
        raise ToolError(f"{folder} isn't empty: name another folder, or replace its map by --force")
    others = list(inputs)
    for name in FILES:
        require_free_file(folder / name, force, others)


def write_csv(road_map: RoadMap, folder: Path) -> None:
    """Writes `nodes.csv`, `lines.csv` and `bans.csv`, and shows how far that is. Raises `OSError`."""
    lines = watched(road_map.lines, "lines written", len(road_map.lines))
    write_records(road_map.nodes, lines, road_map.bans, folder)


def write_records(
    nodes: Iterable[Node], lines: Iterable[Line], bans: Iterable[Ban], folder: Path
) -> None:
    """Writes `nodes.csv`, `lines.csv` and `bans.csv`. Raises `OSError`."""
    write_rows(folder / NODES, NODES_HEADER, ((node.id, *node.position) for node in nodes))
    write_rows(folder / LINES, LINES_HEADER, map(line_row, lines))
    write_rows(folder / BANS, BANS_HEADER, bans)


def write_map(
    road_map: RoadMap,
    folder: Path,
    about: Mapping[str, Any],
    force: bool = False,
    write: Write = write_csv,
) -> None:
    """Writes a map to a folder, and `about` to its `import.json`. Folders above it are made as needed.

    Raises `ToolError` if the folder isn't free (see `require_free`) or can't be written. Then it is as it was.
    """
    require_free(folder, force)
    with writing(folder):
        if folder.exists():
            with folder_beside(folder / NODES) as made:
                _write_files(road_map, made, about, write)
                _replace_files(folder, made)
        else:
            with folder_beside(folder) as beside:
                new = beside / folder.resolve().name
                new.mkdir()
                _write_files(road_map, new, about, write)
                new.rename(folder)
                sync(folder.parent)


def _replace_files(folder: Path, made: Path) -> None:
    """Moves the files of a map into a folder. Its nodes go first and come last: `olr` never reads files of two maps. Where that
    fails, the files that were there are moved back. Raises `OSError`."""
    old = made / "old"
    old.mkdir()
    with _moved(folder, old, reversed(FILES)), _moved(made, folder, FILES):
        sync(folder)


@contextmanager
def _moved(source: Path, folder: Path, names: Iterable[str]) -> Iterator[None]:
    """Moves the files of some names that are there to another folder, which has none of them. Where that fails, or what is done then,
    they are moved back. Raises `OSError`."""
    moving = [name for name in names if (source / name).exists()]
    try:
        for name in moving:
            (source / name).replace(folder / name)
        yield
    except BaseException:
        for name in reversed(moving):
            if (folder / name).exists():
                (folder / name).replace(source / name)
        raise


def write_bans(bans: Sequence[Ban], folder: Path, about: Mapping[str, Any] | None) -> None:
    """Puts other bans in the place of those of a folder's map, and `about` in that of its `import.json`, or leaves that as it is.

    Raises `ToolError` if they can't be written. Then it is as it was; but if only the new `import.json` can't be moved to its place,
    the bans are there."""
    with ExitStack() as files:
        if about is not None:
            _write_about(about, files.enter_context(whole_file(folder / IMPORT, force=True)))
        write_rows(files.enter_context(whole_file(folder / BANS, force=True)), BANS_HEADER, bans)


def _write_files(road_map: RoadMap, folder: Path, about: Mapping[str, Any], write: Write) -> None:
    """Writes the files of a map, and hands them over to the disk."""
    write(road_map, folder)
    write_origins(folder / IDS, road_map.origins, road_map.kept)
    _write_about(about, folder / IMPORT)
    for file in (*folder.iterdir(), folder):
        sync(file)


def _write_about(about: Mapping[str, Any], file: Path) -> None:
    """Writes an `import.json`. Raises `OSError`."""
    text = json.dumps(about, indent=4, sort_keys=True, ensure_ascii=False)
    file.write_text(text + "\n", encoding="utf-8")


def read_about(folder: Path) -> dict[str, Any] | None:
    """What the `import.json` of a folder says, or None if there is none of an import. Raises `ToolError` if it can't be read."""
    file = folder / IMPORT
    try:
        with readable(file):
            about = json.loads(file.read_text(encoding="utf-8")) if file.exists() else None
    except ValueError:
        return None
    needed = {"bans", "importer", "left_out", "u_turns"}
    return about if isinstance(about, dict) and needed.issubset(about) else None


def write_rows(file: Path, header: Sequence[str], rows: Iterable[Sequence[object]]) -> None:
    """Writes a file of CSV. Raises `OSError`."""
    with file.open("w", encoding="utf-8", newline="") as stream:
        writer = csv.writer(stream, lineterminator="\n")
        writer.writerow(header)
        writer.writerows(rows)


def line_row(line: Line) -> tuple[object, ...]:
    """The fields of a line."""
    return (*line[:6], ";".join([f"{lon} {lat}" for lon, lat in line.shape]))


def read_map(folder: Path) -> RoadMap:
    """Reads the files of a folder's map that `olr` reads: `bans.csv` may be missing, and `ids.csv` isn't looked at.

    Raises `ToolError` for the first record that isn't one. It doesn't check more than the form of the fields.
    """
    nodes = list(read_rows(folder / NODES, NODES_HEADER, _node))
    lines = list(read_rows(folder / LINES, LINES_HEADER, _line))
    bans = list(read_rows(folder / BANS, BANS_HEADER, _ban)) if (folder / BANS).exists() else []
    return RoadMap(nodes, lines, bans)


def read_rows(file: Path, header: Sequence[str], row: Callable[[list[str]], Row]) -> Iterator[Row]:
    """The records of a file behind its header, each made a row. Raises `ToolError` for the first that isn't one."""
    for number, record in enumerate(chain.from_iterable(read_batches(file, header)), 1):
        try:
            yield row(record)
        except ValueError as error:
            raise ToolError(f"{file}: record {number} isn't understood: {error}") from error


def read_batches(
    file: Path, header: Sequence[str], advance: Advance = lambda _: None
) -> Iterator[list[list[str]]]:
    """The records of a file behind its header, as `olr` tells them apart, some thousands at a time. `advance` is called with the number
    of bytes that were read. Raises `ToolError` if they can't be read, or one hasn't as many fields as the header.
    """
    number = 0
    with readable(file, WANTED), file.open("rb") as stream:
        records = (fields for _, fields in read_records(stream, advance))
        if next(records, None) != list(header):
            raise ToolError(f"{file} doesn't begin with the header {','.join(header)}")
        while batch := list(islice(records, ROWS)):
            sizes = list(map(len, batch))
            if sizes.count(len(header)) != len(sizes):
                wrong = next(i for i, size in enumerate(sizes) if size != len(header))
                raise ToolError(
                    f"{file}: record {number + wrong + 1} has {sizes[wrong]} fields, not {len(header)}"
                )
            yield batch
            number += len(batch)


def _node(record: list[str]) -> Node:
    return Node(_int(record[0]), Position(_int(record[1]), _int(record[2])))


def _line(record: list[str]) -> Line:
    shape = tuple(_position(item) for item in record[6].split(";")) if record[6] else ()
    id, start, end, road_class, form, length = map(_int, record[:6])
    return Line(id, start, end, road_class, form, length, shape)


def _position(item: str) -> Position:
    lon, lat = item.split(" ")
    return Position(_int(lon), _int(lat))


def _ban(record: list[str]) -> Ban:
    return Ban(_int(record[0]), _int(record[1]))


def _int(text: str) -> int:
    """A number, as `olr` reads it. Raises `ValueError`."""
    number = signed_of(text, 10**MOST_DIGITS)
    if number is None:
        raise ValueError(f"{text!r} isn't a number")
    return number
