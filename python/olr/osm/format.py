"""Of what format an OpenStreetMap file is, by its first bytes. pyosmium goes by the suffix of a name alone."""

from collections.abc import Iterator
from contextlib import contextmanager
from pathlib import Path
from typing import NamedTuple

from olr.importing.packed import BZIP2, GZIP, head_of, packed_error, packing_of
from olr.temporary import temporary_folder

CHANGES = b"<osmChange"
"""The root of a change file."""
PACKED = (GZIP, BZIP2)
"""What pyosmium unpacks."""
BLANKS = b"\xef\xbb\xbf \t\r\n"
"""What may stand before XML: a byte order mark, and blanks."""


class Format(NamedTuple):
    """What is known of a file."""

    suffix: str
    """By which pyosmium knows such a file; an empty text if the first bytes aren't those of any format."""
    is_xml: bool = False
    has_changes: bool = False
    """Whether it is a change file."""


PBF = Format(".pbf")
UNKNOWN = Format("")


def format_of(file: Path) -> Format:
    """The format of a file. Raises `ToolError` if it can't be read, or has to be unpacked first."""
    packing, head = packing_of(file), head_of(file)
    found = _format_of(head)
    if packing is None or found == UNKNOWN and packing in PACKED:
        return found
    if packing not in PACKED or not found.is_xml:
        raise packed_error(file, packing)
    return found._replace(suffix=found.suffix + packing.suffix)


def _format_of(head: bytes) -> Format:
    """The format of a file that begins so."""
    if head[4:15] == b"\n\tOSMHeader":
        return PBF
    if head.startswith((b"\xff\xe0\x04o5m2", b"\xff\xe0\x04o5c2")):
        return Format(".o5m", has_changes=head.startswith(b"\xff\xe0\x04o5c2"))
    if head.lstrip(BLANKS).startswith(b"<"):
        return Format(".osm", is_xml=True, has_changes=CHANGES in head)
    return UNKNOWN


@contextmanager
def named_for_osmium(file: Path, format: Format) -> Iterator[str]:
    """The name of a file by which pyosmium reads it: a link to it, if its own name says another format. Raises `OSError` if the link
    can't be made."""
    if file.name.endswith(format.suffix):
        yield str(file)
        return
    with temporary_folder("olr-tools-") as folder:
        link = folder / f"file{format.suffix}"
        link.symlink_to(file.resolve())
        yield str(link)
