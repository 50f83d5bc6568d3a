"""What the first records of a file have to show."""

from collections.abc import Callable, Iterator, Sequence
from typing import TypeVar

FIRST_RECORDS = 100
Item = TypeVar("Item")


def with_one(
    items: Iterator[Item],
    is_one: Callable[[Item], bool],
    error: Callable[[Sequence[Item]], Exception],
) -> Iterator[Item]:
    """The items, if there are none or one of the first hundred is as it has to be. They are held back until that one has come. Else
    it raises the error that is made of them."""
    held: list[Item] = []
    for item in items:
        held.append(item)
        if is_one(item):
            break
        if len(held) == FIRST_RECORDS:
            raise error(held)
    else:
        if held:
            raise error(held)
    yield from held
    yield from items
