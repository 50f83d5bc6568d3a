"""Sequences that are read when they are first looked at."""

from abc import abstractmethod
from collections.abc import Iterable, Iterator, Sequence
from typing import Generic, TypeVar, overload

Item = TypeVar("Item")


class Late(Sequence[Item], Generic[Item]):
    """Items, or their text in the program's JSON, which is read when they are first looked at. Nearly all of an answer is
    matchings, nine tenths of these are pieces of lines, and most are never looked at.

    `digest` names the version of the map's nodes and lines that they are of, if that is known. Items that are equal are equal on
    each map."""

    __slots__ = ("_held", "digest")

    def __init__(self, items: bytes | Iterable[Item], digest: str | None = None) -> None:
        self._held: bytes | tuple[Item, ...]
        self._held = items if isinstance(items, bytes) else tuple(items)
        self.digest = digest

    @abstractmethod
    def _read(self, text: bytes) -> tuple[Item, ...]:
        """The items of a text. Raises `ValueError` if it isn't one."""

    def unread(self) -> bytes | None:
        """Their text, as long as nobody has looked at them."""
        held = self._held
        return held if isinstance(held, bytes) else None

    def _all(self) -> tuple[Item, ...]:
        held = self._held
        if isinstance(held, bytes):
            # Two threads that look at once read it twice, to the same items.
            held = self._held = self._read(held)
        return held

    @overload
    def __getitem__(self, index: int) -> Item:
        ...

    @overload
    def __getitem__(self, index: slice) -> tuple[Item, ...]:
        ...

    def __getitem__(self, index: int | slice) -> Item | tuple[Item, ...]:
        return self._all()[index]

    def __len__(self) -> int:
        return len(self._all())

    def __iter__(self) -> Iterator[Item]:
        return iter(self._all())

    def __eq__(self, other: object) -> bool:
        if isinstance(other, Late):
            return self._all() == other._all()
        return isinstance(other, tuple) and self._all() == other

    def __hash__(self) -> int:
        return hash(self._all())

    def __repr__(self) -> str:
        return repr(self._all())
