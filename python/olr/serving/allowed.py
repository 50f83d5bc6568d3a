"""Who may ask: the names of the server, and the sites whose pages may."""

from collections.abc import Mapping, Sequence
from starlette.types import Scope
from typing import NamedTuple

from olr.serving.problems import Problem, bad_request

LOOPBACK = ("127.0.0.1", "localhost", "::1")
OWN_SITE = (None, b"none", b"same-origin")
"""What a browser says of the site that asks, if it isn't another one."""


class Allowed(NamedTuple):
    """What the fields Host and Origin may be, in small letters."""

    hosts: frozenset[bytes]
    origins: frozenset[bytes]
    """The server's own ones, and those of others that are allowed."""
    others: frozenset[bytes]
    """Those of others."""


def allowed_for(host: str, port: int, names: Sequence[str], origins: Sequence[str]) -> Allowed:
    """The names of a server that listens to a host and a port: those of the machine itself, the host, and `names`, each with the port, or
    as it is given. `origins` are those of other sites."""
    own = {in_url(name) for name in (*LOOPBACK, host)}
    hosts = {f"{name}:{port}".lower() for name in (*own, *names)}
    hosts |= {name.lower() for name in (*names, *(own if port == 80 else ()))}
    of_own = {f"{scheme}://{name}" for name in hosts for scheme in ("http", "https")}
    others = {origin.lower() for origin in origins}
    return Allowed(_bytes(hosts), _bytes(of_own | others), _bytes(others))


def in_url(host: str) -> str:
    """A host as a URL has it: an address of IPv6 in brackets."""
    return f"[{host}]" if ":" in host else host


def _bytes(texts: set[str]) -> frozenset[bytes]:
    return frozenset(text.encode() for text in texts)


def fields_of(scope: Scope) -> dict[bytes, bytes]:
    """The fields of a head by their names, in small letters. Of those that are there several times it has the last one."""
    return {name: value.lower() for name, value in scope["headers"]}


def require_allowed(scope: Scope, fields: Mapping[bytes, bytes], allowed: Allowed) -> None:
    """Raises `Problem` for a request to another name, as a page makes whose own name was made to lead here, and for one that a page of
    another site makes. A link on such a page may lead here. `fields` are those of `fields_of`."""
    if [name for name, _ in scope["headers"]].count(b"host") != 1:
        raise bad_request("a request has one field Host")
    host = fields[b"host"]
    if host not in allowed.hosts and host not in _names_at(scope):
        text = "the field Host has no name of this server: --allow-host adds one"
        raise Problem(421, "MisdirectedRequest", text)
    origin = fields.get(b"origin")
    if origin is not None:
        own = b"http://" + host, b"https://" + host
        is_foreign = origin not in allowed.origins and origin not in own
    elif fields.get(b"sec-fetch-site") not in OWN_SITE:
        is_foreign = fields.get(b"sec-fetch-mode") != b"navigate"
    else:
        is_foreign = False
    if is_foreign:
        text = "the page of another site asks: --allow-origin admits one"
        raise Problem(403, "OtherOrigin", text)


def _names_at(scope: Scope) -> frozenset[bytes]:
    """What a client calls the server that has reached it by an address of the machine."""
    address, port = scope.get("server") or ("", 0)
    own = in_url(address)
    return _bytes({f"{own}:{port}", *([own] if port == 80 else [])}) if own else frozenset()
