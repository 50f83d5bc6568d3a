"""Requests that wait for a process, by client."""

from collections import Counter, deque
from collections.abc import Callable, Iterable
from contextvars import ContextVar
from itertools import chain

from olr.serving.process import Request

CLIENT: "ContextVar[str]" = ContextVar("CLIENT", default="")
"""The address of whoever asks what is being answered."""


class Waiting:
    """Requests that wait: those of a client in their order."""

    def __init__(self) -> None:
        self._of: dict[str, deque[Request]] = {}

    def __len__(self) -> int:
        return sum(map(len, self._of.values()))

    def add(self, request: Request) -> None:
        """One more, behind the others of its client."""
        self._of.setdefault(request.client, deque()).append(request)

    def put_back(self, requests: Iterable[Request], now: float) -> None:
        """Those of some that have no answer, before the others of their clients. They wait since now."""
        for request in reversed(list(requests)):
            if not request.answer.done():
                request.process, request.since = None, now
                self._of.setdefault(request.client, deque()).appendleft(request)

    def next(self, at_work: Counter[str], may_have: Callable[[str], bool]) -> Request | None:
        """Takes the next request: of the clients that may have one that with the fewest at work, and of those the one that has waited for longest."""
        clients = filter(may_have, self._of)
        client = min(clients, key=lambda it: (at_work[it], self._of[it][0].since), default=None)
        if client is None:
            return None
        request = self._of[client].popleft()
        if not self._of[client]:
            del self._of[client]
        return request

    def take_those(self, which: Callable[[Request], bool]) -> list[Request]:
        """Takes all of which something is so."""
        taken, there = list[Request](), self._of
        self._of = {}
        for request in chain(*there.values()):
            if which(request):
                taken.append(request)
            else:
                self.add(request)
        return taken
