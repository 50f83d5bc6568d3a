"""XML as a stream of elements, by expat. What it may not have is refused: document types and entities, and what would take much memory.

Names are those without a prefix, whatever the namespace is.
"""

import io
import re
import sys
from collections.abc import Iterator
from functools import lru_cache
from xml.parsers import expat

from olr.errors import ToolError
from olr.messages.message import Message
from olr.messages.texts import shown

PIECE_BYTES = 1 << 16
MOST_TOKEN = 4 << 20
"""Bytes of a tag or a comment."""
MOST_TEXT = 1 << 20
"""Letters of a text that is read."""
MOST_DEPTH = 500
"""Elements within each other."""
MOST_NAMES = 1 << 16
"""Different names of elements and attributes. Together they have as many letters as a text."""
MOST_HINTS = 20
_BLANK = b" \t\r\n"
_BLANKS = re.compile("[ \t\r\n]+")
_RECODED = re.compile(rb"<\?xml[^>]*\sencoding\s*=\s*[\"']utf-?16", re.IGNORECASE)
"""What a file in UTF-16 says, though it is UTF-8 here (`opening`)."""
_MOST_DECLARATION = 1000
_CUT = {
    expat.errors.codes[text]
    for text in (
        expat.errors.XML_ERROR_NO_ELEMENTS,
        expat.errors.XML_ERROR_UNCLOSED_TOKEN,
        expat.errors.XML_ERROR_PARTIAL_CHAR,
        expat.errors.XML_ERROR_UNCLOSED_CDATA_SECTION,
    )
}
_SECOND = {
    expat.errors.codes[text]
    for text in (
        expat.errors.XML_ERROR_JUNK_AFTER_DOC_ELEMENT,
        expat.errors.XML_ERROR_MISPLACED_XML_PI,
    )
}


class LocalNames(dict[str, str]):
    """Names without their prefixes, by the names with them. A declaration of a namespace has none of its own."""

    def __missing__(self, name: str) -> str:
        local = name if name.startswith("xmlns:") else name.rpartition(":")[2]
        self[name] = local
        return local


class Walk:
    """Goes through the elements of a file. What becomes of them is the matter of its kinds: they put messages into `found`."""

    def __init__(self, name: str) -> None:
        self.name = name
        self.found: list[Message] = []
        self.local = LocalNames()
        self.depth = 0
        """Of the element that is open, from 1."""
        self.fed_bytes = self.passed_lines = 0
        """Bytes that the parser was given, and lines that it wasn't."""
        self._heard: list[str] = []
        self._hints: dict[str, None] = {}
        self._names = 0
        self.parser = expat.ParserCreate()

    def messages(self, stream: io.BufferedReader) -> Iterator[Message]:
        """The messages of a stream, as they come. Raises `OSError`, and `ToolError` for what is broken or refused."""
        head = self._head(stream)
        if not head:
            return
        self.make_parser("UTF-8" if _RECODED.match(head) else None)
        piece = head
        while piece:
            yield from self._fed(piece, False)
            piece = stream.read1(PIECE_BYTES)
        yield from self._fed(b"", True)
        for hint in self._hints:
            say(f"hint: {self.name}: {hint}")

    def start(self, name: str, attributes: dict[str, str]) -> None:
        """An element begins."""
        raise NotImplementedError

    def end(self, name: str) -> None:
        """An element ends."""
        raise NotImplementedError

    def finish(self) -> None:
        """The file has ended."""

    def feed(self, piece: bytes) -> None:
        """Goes through the next bytes of the file."""
        self.parse(piece)

    def parse(self, part: bytes) -> None:
        """The parser goes through a part of the file."""
        self.fed_bytes += len(part)
        self.parser.Parse(part, False)

    def taken(self) -> list[Message]:
        """The messages that were found, which are no longer held."""
        found, self.found = self.found, []
        return found

    def open_elements(self) -> int:
        """How many elements are open."""
        return self.depth

    def without_prefixes(self, attributes: dict[str, str]) -> dict[str, str]:
        """The attributes of an element. Of two with one name it is that without a prefix, or else the first one."""
        if ":" not in "".join(attributes):
            return attributes
        plain: dict[str, str] = {}
        for name, value in attributes.items():
            plain.setdefault(self.local[name], value)
        return plain | {name: attributes[name] for name in plain.keys() & attributes.keys()}

    def listen(self, texts: list[str] | None) -> None:
        """From now on texts are added to these."""
        self._heard = [] if texts is None else texts
        self.parser.CharacterDataHandler = None if texts is None else texts.append

    def hint(self, text: str) -> None:
        """Something that is said behind the last message, once."""
        if len(self._hints) < MOST_HINTS:
            self._hints[text] = None

    def error(self, what: str) -> ToolError:
        """The error of something in this place."""
        return ToolError(f"{self.name}: line {self._line(self.parser.CurrentLineNumber)} {what}")

    def _line(self, number: int) -> int:
        return self.passed_lines + number

    def make_parser(self, encoding: str | None) -> None:
        """Makes the parser for an encoding, or for that which the file declares."""
        self.parser = parser = expat.ParserCreate(encoding)
        parser.buffer_text = True
        parser.buffer_size = PIECE_BYTES
        parser.StartElementHandler, parser.EndElementHandler = self.start, self.end
        parser.StartDoctypeDeclHandler = self._refuse_document_type

    def _head(self, stream: io.BufferedReader) -> bytes:
        """The first bytes that aren't blank, with the whole declaration."""
        head = b""
        while len(head) < _MOST_DECLARATION and b">" not in head:
            piece = stream.read1(PIECE_BYTES)
            if not piece:
                break
            if not head:
                blank = piece[: len(piece) - len(piece.lstrip(_BLANK))]
                self.passed_lines += blank.count(b"\n")
                piece = piece[len(blank) :]
            head += piece
        return head

    def _fed(self, piece: bytes, is_last: bool) -> Iterator[Message]:
        """The messages that end in a piece: also those before an error."""
        fault: ToolError | None = None
        try:
            self.feed(piece)
            if is_last:
                self.parser.Parse(b"", True)
            self._require_limits()
            if is_last:
                self.finish()
        except ToolError as error:
            fault = error
        except (expat.ExpatError, LookupError, ValueError) as error:
            fault = self._broken(error, is_last)
        yield from self.taken()
        if fault is not None:
            raise fault

    def _broken(self, error: Exception, is_last: bool) -> ToolError:
        """The error of what isn't XML."""
        if not isinstance(error, expat.ExpatError):
            return self.error(f"isn't XML that is read: {shown([str(error)])}")
        place = f"{self.name}: line {self._line(error.lineno)}"
        if is_last and error.code in _CUT:
            return ToolError(f"{place} is its last one, within an element: it was cut short")
        if error.code in _SECOND:
            return ToolError(f"{place} begins another document: give each a file of its own")
        reason = expat.ErrorString(error.code)
        return ToolError(f"{place} isn't XML: {reason}: repair it, or give another --format")

    def _require_limits(self) -> None:
        """Raises `ToolError` for what would take ever more memory."""
        parser = self.parser
        pending = self.fed_bytes - parser.CurrentByteIndex
        if pending > MOST_TOKEN:
            raise self.error(f"begins a tag or a comment of more than {MOST_TOKEN:,} bytes")
        if self.open_elements() > MOST_DEPTH:
            raise self.error(f"is within more than {MOST_DEPTH} elements")
        if self._names != len(parser.intern):
            self._names = len(parser.intern)
            if self._names > MOST_NAMES or sum(map(len, parser.intern)) > MOST_TEXT:
                raise self.error("has a new name, behind too many others")
        if sum(map(len, self._heard)) > MOST_TEXT:
            raise self.error(f"is in a text of more than {MOST_TEXT:,} letters")

    def _refuse_document_type(self, *_: object) -> None:
        raise self.error("has a document type, and such files aren't read: take it out")


def without_blanks(text: str) -> str:
    """A text of base64: XML may have blanks and line ends within it."""
    return _BLANKS.sub("", text)


@lru_cache(maxsize=1000)
def say(line: str) -> None:
    """Prints a line on standard error: once, though a file is read several times."""
    print(line, file=sys.stderr)
