"""A file of messages that is looked through before anything is asked: so what isn't understood is said first, and it is known how many
messages there are, and what is kept of them."""

from collections.abc import Iterator, Mapping
from contextlib import contextmanager, nullcontext
from pathlib import Path

from olr.content import Stamp
from olr.errors import ToolError
from olr.messages.kinds import Kinds, MemberKind
from olr.messages.message import Message, Reading
from olr.messages.opening import as_file, is_read_twice, name_of
from olr.messages.reading import messages_of
from olr.progress import watched


class MessageFile:
    """A file of messages, as often as it is read."""

    def __init__(self, file: Path, reading: Reading, name: str, stamp: Stamp | None = None) -> None:
        """Errors have the `name`. The `stamp` is that of the edition that is read each time; None where this may be another one."""
        self._file, self._reading, self._name, self._stamp = file, reading, name, stamp
        self.total: int | None = None
        """How many messages there are: None before it was looked through."""
        self.kept: Mapping[str, MemberKind] = {}
        """What is kept of messages, as far as it was looked through: members with their kinds."""

    def look_through(self) -> None:
        """Counts the messages, and finds what is kept of them. Raises `ToolError`, also if no record has a member that is to be kept."""
        kinds, total = Kinds(self._reading, self._name), 0
        messages = messages_of(self._file, self._reading, self._name)
        for message in watched(messages, "messages looked through"):
            total += 1
            kinds.add(message.kept)
        if total:
            kinds.require_all()
        self.total, self.kept = total, kinds.found()

    def messages(self) -> Iterator[Message]:
        """The messages, one after the other. Raises `ToolError`: behind the last one if the file has another stamp."""
        yield from messages_of(self._file, self._reading, self._name)
        if self._stamp is not None and Stamp.of(self._file) != self._stamp:
            raise ToolError(f"{self._name} changed while it was read: begin again when it is whole")


@contextmanager
def message_file(file: Path, reading: Reading) -> Iterator[MessageFile]:
    """Gives a file of messages, looked through if it can be read twice. What can't, as standard input, is copied first if something is
    kept of it. Raises `ToolError`."""
    name = name_of(file)
    with as_file(file) if reading.keep else nullcontext(file) as there:
        can_change = not (reading.keep and is_read_twice(there))
        found = MessageFile(there, reading, name, None if can_change else Stamp.of(there))
        if reading.keep or is_read_twice(there):
            found.look_through()
        yield found
