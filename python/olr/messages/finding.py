"""One message of a file, by its key or its number."""

from pathlib import Path

from olr.errors import ToolError
from olr.messages.message import Message, Reading
from olr.messages.opening import name_of
from olr.messages.reading import messages_of


def message_of_record(file: Path, reading: Reading, record: int) -> Message:
    """The message with a number. Raises `ToolError`."""
    for message in messages_of(file, reading):
        if message.record == record:
            return message
    raise ToolError(f"{name_of(file)} has no record {record}")


def message_of_key(file: Path, reading: Reading, key: str) -> Message:
    """The message with a key. Raises `ToolError`, also if there are several."""
    found = [message for message in messages_of(file, reading) if message.key == key]
    name = name_of(file)
    if not found:
        raise ToolError(f"{name} has no record with the key {key}: say where keys are by --key")
    if len(found) > 1:
        twice = f"{name} has the key {key} in the records {found[0].record} and {found[1].record}"
        raise ToolError(f"{twice}: choose one by --record")
    return found[0]
