"""Changes as rows with geometries: two for each reference, of the old map and of the new one."""

import numpy as np

from olr.comparing.asking import Chunk
from olr.comparing.columns import CHANGES, ChangeRow, ChangeRows, alternating
from olr.geometry.parts import Polylines
from olr.matching.rows import Rows
from olr.matching.tables import values_of
from olr.matching.writing import Sink


def add_chunk(sink: Sink, chunk: Chunk) -> None:
    """Adds the rows of a chunk. Raises `OSError` and `sqlite3.Error`."""
    before = [ChangeRow(one, "old", one.old) for one in chunk.references]
    after = [ChangeRow(one, "new", one.new) for one in chunk.references]
    rows = ChangeRows(alternating(before, after), chunk.old, chunk.new)
    numbers = range(len(chunk.references))
    lines = alternating(chunk.old.shapes.each(), chunk.new.shapes.each())
    sizes = np.array(list(map(len, lines)), dtype=np.int64)
    sink.add(
        [one.message for one in chunk.references],
        Rows(
            alternating(numbers, numbers),
            values_of(CHANGES, rows),
            Polylines(np.concatenate(lines), sizes),
        ),
    )
