"""The command `olr-tools serve`."""

import click
import os
import re
from collections.abc import Sequence
from ipaddress import ip_address
from pathlib import Path
from typing import Any

from olr.commands import options
from olr.model.questions import NUMBERS
from olr.serving import logs
from olr.serving.allowed import LOOPBACK
from olr.serving.limits import MIB, Limits
from olr.serving.maps import ALONE
from olr.serving.openapi import document
from olr.serving.peers import PREFIX
from olr.serving.server import Settings, serve

NAME = re.compile(r"([A-Za-z0-9._-]+|\[[0-9A-Fa-f:.]+\])(:[0-9]{1,5})?")
MAP_NAME = re.compile("[A-Za-z0-9_-]{1,64}")
ORIGIN = re.compile(r"https?://" + NAME.pattern)
LIMITS = Limits()
RESERVED = {"assets", "docs", *(path.split("/")[1] for path in document(LIMITS)["paths"])}
"""What addresses begin with."""
MOST_WORKERS = 1000


class Text(click.ParamType):
    """A text of a form."""

    name = "text"

    def __init__(self, pattern: re.Pattern[str], about: str) -> None:
        self._pattern, self._about = pattern, about

    def convert(self, value: str, param: click.Parameter | None, ctx: click.Context | None) -> str:
        """The text. Ends with a usage error if it hasn't the form."""
        if not self._pattern.fullmatch(value):
            self.fail(f"{value!r} isn't {self._about}", param, ctx)
        return value


class Address(click.ParamType):
    """An address of IPv4 or IPv6."""

    name = "address"

    def convert(self, value: str, param: click.Parameter | None, ctx: click.Context | None) -> str:
        """The address. Ends with a usage error if it isn't one."""
        try:
            return str(ip_address(value))
        except ValueError:
            self.fail(f"{value!r} is no address of IPv4 or IPv6", param, ctx)


@click.command()
@click.option(
    "--map",
    "maps",
    required=True,
    multiple=True,
    metavar="[NAME=]DIR|STORE",
    help=f"The map: {options.OR_STORE}. Given several times, each with a NAME, the addresses of each begin with its name, such as /town/match; "
    "those without one are of the first map.",
)
@click.option(
    "--host",
    default="127.0.0.1",
    show_default=True,
    metavar="ADDRESS",
    help="The address to listen to. There is no login and no encryption: what others reach belongs behind a server that has them.",
)
@options.count_option(
    "--port",
    "The port to listen to; 0 for any that is free. It is printed.",
    least=0,
    greatest=65_535,
    default=8000,
)
@options.count_option(
    "--workers",
    "So many processes of the program there are at most, each of which holds the map in memory: one client has all but one. By default one more than "
    "there are processors. A store is asked by one.",
    greatest=MOST_WORKERS,
)
@click.option(
    "--time-limit",
    "time",
    type=click.FloatRange(0, 86_400, min_open=True),
    default=LIMITS.time,
    show_default=True,
    metavar="SECONDS",
    help="How long a process may work at one answer, a request may wait for a process, and nothing may move in a stream.",
)
@click.option(
    "--body-limit",
    "body",
    type=click.IntRange(1, 1_000_000),
    default=LIMITS.body // MIB,
    show_default=True,
    metavar="MIB",
    help="The most that the body of a request has, in MiB of 1048576 bytes.",
)
@options.count_option(
    "--look-limit",
    "The greatest look that may be asked for, in matchings.",
    "look",
    greatest=NUMBERS["places"]["look"].greatest,
    default=LIMITS.look,
)
@click.option(
    "--allow-host",
    "names",
    multiple=True,
    type=Text(NAME, "a name of a host"),
    metavar="NAME",
    help="Another name by which the server is called, as a server in front of it passes it on. May be given several times. By default "
    "it answers to localhost, 127.0.0.1, [::1] and ADDRESS alone, with its port.",
)
@click.option(
    "--allow-origin",
    "origins",
    multiple=True,
    type=Text(ORIGIN, "an origin, such as https://maps.example"),
    metavar="ORIGIN",
    help="A site whose pages may ask, such as https://maps.example. May be given several times. By default those of the server alone.",
)
@click.option(
    "--proxy",
    "proxies",
    multiple=True,
    type=Address(),
    metavar="ADDRESS",
    help="The address of a server in front of it, whose field X-Forwarded-For says who asks, and X-Forwarded-Prefix below "
    "which path. May be given several times. By default there is none, and whoever is connected asks. One client has a part of what the "
    "server does at once.",
)
@click.option(
    "--root-path",
    "root_path",
    default="",
    type=Text(PREFIX, "a path, such as /olr"),
    metavar="PATH",
    help="The path below which a server in front has this one, such as /olr: links begin with it. By default there is none.",
)
@options.tiles_option(" on the page")
@options.confidence_option
@click.option(
    "--log",
    "logged",
    type=click.Choice(["events", "requests"]),
    default="events",
    show_default=True,
    help="What is written on standard error: what fails or changes, or each request too, without its reference.",
)
def command(
    maps: Sequence[str],
    host: str,
    workers: int | None,
    time: float,
    body: int,
    look: int,
    logged: str,
    **chosen: Any,
) -> None:
    """Answer questions about references on a map by HTTP, for browsers and other programs.

    A line with the URL is printed once it listens. SIGHUP reads the map anew, SIGTERM and SIGINT end the server when what runs is
    answered. docs/SERVE.md has the addresses.
    """
    logs.start(logged == "requests")
    if host not in LOOPBACK:
        click.echo(
            f"olr-tools: {host} can be reached by others, and there is no login and no encryption: put a server that has them in front, and "
            "name it by --allow-host",
            err=True,
        )
    limits = Limits(time, body * MIB, look)
    many = workers or min(len(os.sched_getaffinity(0)) + 1, MOST_WORKERS)
    serve(Settings(_maps(maps), host, workers=many, limits=limits, **chosen))


def _maps(words: Sequence[str]) -> dict[str, Path]:
    """The maps by their names, as `Settings` has them. Ends with a usage error if the name of one isn't clear."""
    maps: dict[str, Path] = {}
    for word in words:
        name, equals, path = word.partition("=")
        if not equals or Path(word).exists():
            name, path = ALONE, word
        elif not MAP_NAME.fullmatch(name):
            raise click.UsageError(f"{name!r} isn't a name of a map: letters, digits, _ and -")
        elif name in RESERVED:
            raise click.UsageError(f"{name!r} isn't a name of a map: an address begins so")
        if name in maps or ALONE in maps or name == ALONE and maps:
            raise click.UsageError("several maps have a name each: --map NAME=DIR")
        maps[name] = Path(path)
    return maps
