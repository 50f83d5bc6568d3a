"""How much is done at once: bodies that are waited for, and requests that are at work."""

from starlette.types import Message, Receive

from olr.serving.limits import MOST_BODIES, MOST_REQUESTS
from olr.serving.peers import Shares


class Loads:
    """Counts requests. One whose body is waited for costs little, however long that takes, so it is counted apart: slow bodies don't keep others
    from being answered."""

    def __init__(self) -> None:
        self.bodies = Shares(MOST_BODIES, "bodies that are waited for")
        self.requests = Shares(MOST_REQUESTS, "requests")

    def taken(self, client: str, has_body: bool) -> "Load":
        """What a request of a client is, until it is given back. Raises `Problem` where there are too many."""
        return Load(self, client, has_body)


class Load:
    """A request that is counted."""

    __slots__ = ("_all", "_client", "_shares")

    def __init__(self, all: Loads, client: str, has_body: bool) -> None:
        self._all, self._client = all, client
        self._shares = all.bodies if has_body else all.requests
        # A body that is there soon is a request at work.
        all.requests.require_room(client)
        if has_body:
            all.bodies.require_room(client)
        self._shares.add(client)

    def receiving(self, receive: Receive) -> Receive:
        """By what the body is received: when it is there the request is at work."""

        async def received() -> Message:
            message = await receive()
            if self._shares is self._all.bodies and not message.get("more_body", False):
                self.give_back()
                self._shares = self._all.requests
                self._shares.add(self._client)
            return message

        return received

    def give_back(self) -> None:
        """Counts it no more."""
        self._shares.give_back(self._client)
