"""Lines of many files, each in the order of the records, made one file in that order."""

import heapq
import re
import tempfile
from collections.abc import Generator, Iterable, Iterator, Sequence
from contextlib import ExitStack, closing
from pathlib import Path

from olr.errors import ToolError, readable
from olr.outputs import whole_file
from olr.progress import watched

MOST_OPEN = 256
"""So many files are read at a time. A process may have 1,024 open as systems come."""
MEMBER, END = b'"record":', b"}\n"
"""What stands before and behind the number of a line: its last member."""
FAULT = re.compile(rb'{"answer":null,"fault":"(\w+)[^"]*"')
"""The beginning of a line without an answer."""
BUFFER_BYTES = 1 << 16
"""Of each file that is read or written."""

Lines = Generator[bytes, None, None]
"""Lines of a file, which isn't opened before the first one is asked for."""
Numbered = tuple[int, bytes]
"""A line behind its number."""


def end_of(number: int) -> bytes:
    """The end of the line of a record."""
    return b"%b%d%b" % (MEMBER, number, END)


def number_of(line: bytes) -> int:
    """The number of the record that a line answers. Raises `ValueError` for what is no line of an answer."""
    begin = line.rfind(MEMBER) + len(MEMBER)
    digits = line[begin : -len(END)]
    if begin < len(MEMBER) or not line.endswith(END) or not digits.isdigit():
        raise ValueError("a line has no number of a record at its end")
    return int(digits)


def fault_of(line: bytes) -> str | None:
    """The name of a line's fault, or None where it has an answer."""
    found = FAULT.match(line)
    return None if found is None else found[1].decode()


def lines_of(file: Path) -> Lines:
    """The lines of a file. Raises `ToolError` if it can't be read."""
    with readable(file), file.open("rb", buffering=BUFFER_BYTES) as stream:
        yield from stream


def merge(files: Sequence[Lines], scratch: Path) -> Iterator[bytes]:
    """The lines of some files, in the order of the records. It holds one line of each, and 256 at most. More files are first made
    fewer ones, in a scratch folder. Raises what reading the files does, and `OSError` for the folder.
    """
    return (line for _, line in _merge(files, scratch))


def _merge(files: Sequence[Lines], scratch: Path) -> Iterator[Numbered]:
    """The lines of some files, as `merge`, with their numbers."""
    while len(files) > MOST_OPEN:
        made = Path(tempfile.mkdtemp(dir=scratch))
        starts = range(0, len(files), MOST_OPEN)
        pieces = [(made / str(first), files[first : first + MOST_OPEN]) for first in starts]
        files = [lines_of(write_lines(file, merge(piece, scratch))) for file, piece in pieces]
    with ExitStack() as stack:
        streams = [stack.enter_context(closing(file)) for file in files]
        yield from heapq.merge(*map(_numbered, streams))


def _numbered(lines: Lines) -> Iterator[Numbered]:
    """Lines with their numbers."""
    return ((number_of(line), line) for line in lines)


def join(
    files: Sequence[Lines],
    file: Path,
    total: int,
    force: bool = False,
    inputs: Iterable[Path] = (),
) -> None:
    """Writes the lines of files to one, in the order of the records, and shows how many of the total are written. Raises
    `ToolError` as `whole_file` and reading the files do, or if there isn't one line for each of so many records: then all is as it
    was."""
    with whole_file(file, force, inputs) as made:
        lines = _one_each(_merge(files, made.parent), total)
        write_lines(made, watched(lines, "lines joined", total))


def _one_each(lines: Iterable[Numbered], total: int) -> Iterator[bytes]:
    """Lines of so many records. Raises `ToolError` for one that comes twice, and at the end if some are missing."""
    count, before = 0, -1
    for number, line in lines:
        if number <= before:
            raise ToolError(f"there are two lines for record {number}: go on by --resume")
        count, before = count + 1, number
        yield line
    if count != total:
        raise ToolError(f"there are {count:,} lines for {total:,} records: go on by --resume")


def write_lines(file: Path, lines: Iterable[bytes]) -> Path:
    """Writes lines to a new file. Raises `OSError`."""
    with file.open("xb", buffering=BUFFER_BYTES) as stream:
        stream.writelines(lines)
    return file
