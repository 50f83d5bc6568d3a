"""What rows have of messages beside their answers: what is kept of them, and their own faults, by the numbers of their records.

Parts have records in another order than the file of messages. So it is read once more, into a scratch file: what is held in memory is
bounded.
"""

import json
import sqlite3
from collections.abc import Iterator
from contextlib import closing, contextmanager

from olr.errors import ToolError
from olr.messages.kinds import value_as
from olr.messages.message import Message
from olr.messages.message_file import MessageFile
from olr.progress import watched
from olr.regions.geopackage import os_error
from olr.regions.scratch import ADVICE, scratch_folder

TABLE = "CREATE TABLE notes (record INTEGER PRIMARY KEY, fault TEXT, kept TEXT)"
Note = tuple[int, str | None, str]
"""The number of a record, its own fault, and the values of its members as JSON."""


class MessageNotes:
    """The scratch file."""

    def __init__(self, connection: sqlite3.Connection, file: MessageFile) -> None:
        """An empty one, for the messages of a file that was looked through if something is kept of them."""
        self._connection, self._file = connection, file

    def fill(self) -> None:
        """Reads the messages. Raises `ToolError`, also if the file can't be written."""
        messages = watched(self._file.messages(), "messages read again", self._file.total)
        notes = (self._note(one) for one in messages if one.fault is not None or one.kept)
        with _writing():
            self._connection.executemany("INSERT INTO notes VALUES (?, ?, ?)", notes)
            self._connection.commit()

    def noted(self, message: Message) -> Message:
        """A message with what is noted of its record. Raises `ToolError`."""
        found = "SELECT fault, kept FROM notes WHERE record = ?"
        with _writing():
            row = self._connection.execute(found, (message.record,)).fetchone()
        if row is None:
            return message
        fault, kept = row
        return message._replace(fault=fault, kept=dict(zip(self._file.kept, json.loads(kept))))

    def _note(self, message: Message) -> Note:
        values = [value_as(message.kept.get(name), kind) for name, kind in self._file.kept.items()]
        return message.record, message.fault, json.dumps(values)


@contextmanager
def notes_of(file: MessageFile) -> Iterator[MessageNotes]:
    """Gives the notes of the messages of a file, in a scratch file that is deleted at the end. Raises `ToolError`."""
    with scratch_folder() as scratch, _writing():
        with closing(sqlite3.connect(scratch / "notes")) as connection:
            connection.execute("PRAGMA journal_mode = OFF")
            connection.execute("PRAGMA synchronous = OFF")
            connection.execute(TABLE)
            notes = MessageNotes(connection, file)
            notes.fill()
            yield notes


@contextmanager
def _writing() -> Iterator[None]:
    """Raises `ToolError` for each error of SQLite: the scratch file can't be written, or read again."""
    try:
        yield
    except sqlite3.Error as error:
        found = os_error(error)
        why = found.strerror or found
        raise ToolError(f"scratch files can't be written: {why}: {ADVICE}") from error
