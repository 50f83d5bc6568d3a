"""Messages in XML: DATEX II, OpenLR's own schema, or elements and attributes that are named. docs/MESSAGES.md says what is read."""

import io
from collections.abc import Iterator, Sequence

from olr.errors import ToolError
from olr.messages.first import with_one
from olr.messages.message import Message, Reading
from olr.messages.named_elements import NamedElements
from olr.messages.openlr_elements import KnownElements


def messages_of_xml(stream: io.BufferedReader, reading: Reading, name: str) -> Iterator[Message]:
    """The messages of a stream, as they come; of a record of which something is kept, when it has ended. What isn't known within references
    is said on standard error behind the last one. Raises `OSError`, and `ToolError`, with the `name` of the file, for what isn't XML or is
    refused, and if there is no reference, or no key that was asked for.
    """
    kind = KnownElements if reading.ref is None else NamedElements
    messages = kind(reading, name).messages(stream)
    return messages if reading.key is None else _with_key(messages, reading.key, name)


def _with_key(messages: Iterator[Message], key: str, name: str) -> Iterator[Message]:
    """Messages, if one of the first ones has a key."""

    def refusal(_: Sequence[Message]) -> ToolError:
        return ToolError(f"{name} has no {key} around its first references: name another by --key")

    return with_one(messages, lambda message: message.key is not None, refusal)
