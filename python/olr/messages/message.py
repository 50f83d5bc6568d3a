"""A message, and what was said of a file of them."""

from collections.abc import Mapping
from types import MappingProxyType
from typing import Any, Literal, NamedTuple, TypeVar, get_args

from olr.model.fault import Fault

Format = Literal["tab", "csv", "jsonl", "jsonseq", "json", "xml", "gpkg", "shp", "xlsx"]
FORMATS: tuple[Format, ...] = get_args(Format)
JSON: tuple[Format, ...] = ("jsonl", "jsonseq", "json")
TABLES: tuple[Format, ...] = ("gpkg", "shp", "xlsx")
"""Formats of files that aren't read as streams."""
KEY, REF = "key", "ref"
"""The columns or members of a key and a reference if nothing else was said."""
Base64 = Literal["plain", "url"]
BASE64: tuple[Base64, ...] = get_args(Base64)
"""Which base64 references are in: `url` has `-` and `_` in place of `+` and `/`, and needs no `=` at its end."""
ALL = ("all",)
"""What is kept where all of a record is."""

Answered = TypeVar("Answered")
NOTHING_KEPT: Mapping[str, Any] = MappingProxyType({})


class Message(NamedTuple):
    """A record of a file of messages: what `olr.read_feed` gives.

    >>> import olr
    >>> first, *others = olr.read_feed("examples/messages.tsv")
    >>> first.record, first.key, first.reference, first.fault, dict(first.kept)
    (1, 'm1', 'CwVF/yN2yRpnBAFUAAgbpwYBAf9kK0Fa', None, {})
    """

    record: int
    """Its number, from 1: of its line, of the record of a table behind the header, in JSON of the element over the whole file. Each of the
    references of a list counts, and in XML each reference."""
    key: str | None
    """None where there is none."""
    reference: str
    """A text without line feeds: whether it is a reference the program says."""
    fault: str | None = None
    """Why there is no reference where the record has one in another form, which can't be written in binary: a name, and perhaps a blank and more.
    Then the reference is empty, and the program isn't asked."""
    kept: Mapping[str, Any] = NOTHING_KEPT
    """What `Reading.keep` names of the record, as far as it has that: texts of CSV and XML, values of JSON and of tables with types, as JSON
    has some."""

    def answer(self, found: Answered) -> Answered | Fault:
        """What was found about its reference, or its own fault.

        >>> import olr
        >>> olr.Message(1, "m1", "", "TooFar 1").answer(olr.Fault("Empty")).text
        'TooFar 1'
        """
        return found if self.fault is None else Fault(self.fault)


class Reading(NamedTuple):
    """What was said of a file of messages, None for what was left out."""

    format: Format | None = None
    ref: str | None = None
    key: str | None = None
    keep: tuple[str, ...] = ()
    """Columns, members or elements of a record to hand on: `("all",)` for all of them."""
    base64: Base64 = "plain"
    """That of the references."""
    shift: tuple[float, float] = (0.0, 0.0)
    """By how many metres the points of the references are moved to the east and to the north, as `olr.model.reference.moved` does."""

    def names_columns(self) -> bool:
        """Whether a column or a member was named, so that the file has some."""
        return self.ref is not None or self.key is not None
