"""The turns from lines into others, by the nodes where they end and start. It needs scipy."""

import numpy as np
from scipy.sparse import csr_matrix
from typing import Any

from olr.arrays import Integers


def matrix(rows: Integers, columns: Integers, shape: tuple[int, int]) -> Any:
    """A sparse matrix with a one at each of some places."""
    return csr_matrix((np.ones(len(rows), dtype=np.int8), (rows, columns)), shape=shape)


def turns_from(
    which: Integers, start: Integers, end: Integers, bans: tuple[Integers, Integers]
) -> tuple[Integers, Integers]:
    """The turns from some lines: the indices of two lines each, of which the second starts where the first ends, and no ban is on them.
    `start` and `end` have the number of a node for each line, and `bans` the indices of both lines of each ban.
    """
    every = np.arange(len(start))
    shape = (len(start), int(np.max([start, end], initial=0)) + 1)
    meeting = matrix(which, end[which], shape) @ matrix(every, start, shape).T
    first, second = (meeting > matrix(*bans, (len(start), len(start)))).nonzero()
    return first.astype(np.int64), second.astype(np.int64)
