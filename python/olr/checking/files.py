"""All faults of the files of a map, in the order in which `olr` looks for them: their headers, their records, their sizes."""

import os
from collections.abc import Callable, Iterator
from contextlib import ExitStack
from pathlib import Path
from typing import BinaryIO

from olr.checking import remedies
from olr.checking.faults import Fault, Faults, shown
from olr.checking.rules import HEADERS, Record, check_bans, check_lines, check_nodes
from olr.checking.tables import Tables
from olr.model.records import read_records, size_of
from olr.model.road_map import MOST_BANS, MOST_LINES, MOST_NODES
from olr.progress import progress

LIMITS = {"nodes": MOST_NODES, "lines": MOST_LINES, "bans": MOST_BANS}

Check = Callable[[Iterator[Record], Faults, Tables], None]


def check_files(folder: Path, most: int) -> tuple[Faults, Tables]:
    """The faults of a folder's files, at most `most` of each kind, and what the files have. `bans.csv` may be missing."""
    faults, tables = Faults(most), Tables()
    checks = {"nodes": check_nodes, "lines": check_lines, "bans": check_bans}
    if not os.path.exists(folder / "bans.csv"):
        del checks["bans"]
    # All files are opened before one is read.
    with ExitStack() as stack:
        streams = {file: _open(folder, file, faults, stack) for file in checks}
        for file, check in checks.items():
            stream = streams[file]
            if isinstance(stream, Fault):
                faults.add(stream)
            elif stream is not None:
                _check_file(stream, file, faults, tables, check)
    return faults, tables


def _open(folder: Path, file: str, faults: Faults, stack: ExitStack) -> BinaryIO | Fault | None:
    """A file of the folder, open for reading; None if it can't be opened, which is a fault. A folder can be opened, but not read:
    then the answer is the fault of reading it."""
    path = folder / f"{file}.csv"
    remedy = "Name a folder with the files of a map"
    try:
        return stack.enter_context(path.open("rb"))
    except IsADirectoryError:
        return Fault("ReadFailed", file, f"{path} is a folder", remedy)
    except OSError as error:
        what = f"{path} can't be opened: {error.strerror}"
        faults.add(Fault("OpenFailed", file, what, remedy))
        return None


def _check_file(stream: BinaryIO, file: str, faults: Faults, tables: Tables, check: Check) -> None:
    """Adds the faults of a file, and puts what it has into the tables."""
    try:
        with progress(f"bytes of {file}.csv", size_of(stream)) as advance:
            records = read_records(stream, advance)
            behind = _behind_header(records, file, faults)
            if behind is not None:
                check(_counted(behind, file, faults, tables), faults, tables)
    except OSError as error:
        what = f"{file}.csv can't be read to its end: {error.strerror}"
        faults.add(Fault("ReadFailed", file, what, "Try to copy the file elsewhere"))
        setattr(tables, file, None)


def _behind_header(
    records: Iterator[tuple[int, list[str]]], file: str, faults: Faults
) -> Iterator[tuple[int, list[str]]] | None:
    """The records behind the header. Where the header is wrong that is a fault, and None if the columns can't be known."""
    wanted = HEADERS[file]
    first: tuple[int | None, list[str]] = next(records, (None, []))
    line, fields = first
    if tuple(fields) == wanted:
        return records
    what = f"{file}.csv begins with {shown(','.join(fields))}" if fields else f"{file}.csv is empty"
    remedy = remedies.header_remedy(wanted, fields)
    faults.add(Fault("Header", file, what, remedy, line=line))
    same_columns = tuple(name.strip().lower() for name in fields) == wanted
    return records if same_columns else None


def _counted(
    records: Iterator[tuple[int, list[str]]], file: str, faults: Faults, tables: Tables
) -> Iterator[Record]:
    """Numbers the records from 1, and adds the fault of a file that has too many, or of a record with too few fields or too
    many. Each record is given, those with such a fault too."""
    limit = LIMITS[file]
    wanted = len(HEADERS[file])
    number = 0
    tables.counts[file] = 0
    for number, (line, fields) in enumerate(records, 1):
        if number == limit + 1:
            what = f"the file has more than {limit:,} records"
            remedy = "Make a store of the map by olr-tools regions, or cut out the surroundings of your references"
            faults.add(Fault("TooMany", file, what, remedy, number, line))
        if len(fields) != wanted:
            what = f"the record has {len(fields)} fields, not {wanted}"
            remedy = remedies.shape_remedy(file, wanted, fields)
            faults.add(Fault("Shape", file, what, remedy, number, line))
        yield number, line, fields
    tables.counts[file] = number
