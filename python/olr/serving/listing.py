"""A process that reads a list of messages: the list is its standard input, and its lines of JSON its standard output.

What a list says may take many times as much memory as its bytes, and its reader lets nothing else run. So it is read here, and the server stays quick and small.
"""

import json
import resource
import sys
from io import BufferedIOBase
from itertools import islice
from typing import cast

from olr.errors import ToolError
from olr.messages.message import Message, Reading
from olr.messages.reading import messages_in
from olr.model.questions import record_text

NAME = "the list"
"""What errors call it."""
MOST_ROWS = 10_000
"""Messages that the page shows. The answer has one more where there are more."""
MOST_MEMORY = 256 << 20
"""Bytes that reading may take. A list of 16 MiB whose messages have four members each, or 22, takes less than half of that."""


def line_of(message: Message) -> bytes:
    """A message as JSON. A reference that is too long is so whatever it has. `fault` is the message's own: most have none."""
    about = {
        "record": message.record,
        "key": message.key,
        "reference": record_text(message.reference).decode(),
        "fault": message.fault,
    }
    return json.dumps(about, separators=(",", ":")).encode() + b"\n"


def main(words: list[str]) -> int:
    """Reads a list as the words say: they are a `Reading` as JSON. Answers the status: 1 where it isn't understood, and why is said on
    standard error."""
    resource.setrlimit(resource.RLIMIT_DATA, (MOST_MEMORY, MOST_MEMORY))
    reading = Reading(*json.loads(words[0]))
    try:
        messages = messages_in(cast(BufferedIOBase, sys.stdin.buffer), reading, NAME)
        sys.stdout.buffer.writelines(map(line_of, islice(messages, MOST_ROWS + 1)))
        sys.stdout.flush()
        return 0
    except ToolError as error:
        text = str(error)
    except MemoryError:
        text = f"{NAME} has more values than are read at once: give it as lines, or match the file by olr-tools match"
    sys.stderr.write(text)
    return 1
