"""Feeds in element form, drawn: most references have the shape of others, and some are odd in one of many ways."""

import random
import re

from xml_forms import DATEX, FORMS, OWN

ODD = {
    "<longitude>": "<longitude><!-- 5 -->",
    "<Latitude>": "<Latitude><![CDATA[5]]>",
    "FRC": "&#70;RC",
    "</openlrBearing>": "</openlrBearing><openlrBearing>7</openlrBearing>",
    "<openlrFormOfWay>": "<openlrFormOfWay><a>5</a>",
    "</openlrCoordinates>": "</openlrCoordinates><more>5</more><more/>",
    "<openlrLineAttributes>": "<openlrLineAttributes a='>5</'>",
    "<FRC>": "<FRC b='<'>",
    "<LineAttributes>": "<LineAttributes c='1' xmlns:x='>'>",
    "</Coordinates>": "</Coordinates> & ",
    "<openlrPathAttributes>": "<?olr <a>5</a>?><openlrPathAttributes>",
    "</openlrLineAttributes>": "</openlrLineAttributes >",
    ">1": "> 1",
    ">2": ">\n2",
    "5</": "\t5 </",
    "7</": "\u0667</",
    "0</": "0,5</",
    "8</": "8\r\n</",
    "4</": "4]]></",
    "3</": "3>3</",
    "<longitude>3": "<longitude>",
    "<latitude>": "<latitude>-",
    "openlrBearing": "bearing",
    "firstDirection": "openlrExtendedLinear",
    "<firstDirection>": "stray<firstDirection>5",
    "<LineLocationReference>": "<LineLocationReference><version>5</version>",
    "<openlrLastLocationReferencePoint>": "<openlrLastLocationReferencePoint><n>5</n>",
    "</situationRecord>": "",
    "<openlrExtendedLinear>": "<openlrExtendedLinear><openlrBinary>CwVF+yN2yhpnBAFdAAsaFg==</openlrBinary>",
    "<XMLLocationReference>": "<XMLLocationReference type='PointAlongLine'>",
}
"""What is put in place of a part of a record."""
BINARIES = (
    "CwVF+yN2yhpnBAFdAAsaFg==",
    "CwVF/yN2yRpnBAFUAAgbpwYBAf9kK0Fa",
    "CwVF +yN2",
    "CwVF\n+yN2",
    "-",
)
BYTES = b"<>&/'\"]!-?=\r\n\x00\xff\xc3\xa9"
STARTS = (
    '<?xml version="1.0"?>',
    '<?xml version="1.0" encoding="ISO-8859-1"?>',
    '<?xml version="1.0" encoding="koi8-r"?>',
    "",
)


def feed(draws: random.Random) -> bytes:
    """A feed of up to 49 records, some of them odd; of a third of the feeds some bytes are changed, of some the end is missing."""
    record = draws.choice((_situation, _location))
    records = [record(draws, draws.randrange(3)) for _ in range(draws.randrange(1, 50))]
    for _ in range(draws.choice((0, 1, 1, 2))):
        _make_odd(draws, records)
    blank = draws.choice(("", "", "", "\n  ", "\r\n  ", " ", "\n", "\r"))
    text = "<feed>" + "\n".join(records) + "</feed>"
    text = draws.choice(STARTS) + re.sub("(?<=>)(?=<)", blank, text)
    if draws.randrange(4) == 0:
        text = re.sub("(</?)(openlr|L)", r"\1x:\2", text)
    data = bytearray(text.encode())
    if draws.randrange(3) == 0:
        for _ in range(draws.choice((1, 1, 5))):
            data[draws.randrange(len(data))] = draws.choice(BYTES)
    return bytes(data[: draws.randrange(len(data))] if draws.randrange(6) == 0 else data)


def pieces(draws: random.Random, data: bytes) -> list[bytes]:
    """A feed in pieces."""
    size = draws.choice((300, 5000, 9000, 9000))
    return [data[at : at + size] for at in range(0, len(data), size)]


def _make_odd(draws: random.Random, records: list[str]) -> None:
    """Changes a record in a way that fits it, or many in the same way."""
    part = draws.choice([part for part in ODD if part in draws.choice(records)] or ["<n>"])
    count, most = draws.choice((1, -1)), draws.choice((1, 1, len(records)))
    for at in draws.sample(range(len(records)), most):
        records[at] = records[at].replace(part, ODD.get(part, ""), count)


def _situation(draws: random.Random, number: int) -> str:
    directions = f"<firstDirection>{_points(draws, DATEX)}</firstDirection>"
    if draws.randrange(20) == 0:
        directions += directions.replace("firstDirection", "oppositeDirection")
    if draws.randrange(4) == 0:
        directions = f"<openlrBinary>{draws.choice(BINARIES)}</openlrBinary>"
    inner = f"<openlrExtendedLinear>{directions}</openlrExtendedLinear>"
    cause = f"<cause><n>x{number}</n></cause>"
    return f'<situationRecord id="{number}">{cause}<g>y{inner}z</g></situationRecord>'


def _location(draws: random.Random, number: int) -> str:
    inner = f"<LineLocationReference>{_points(draws, OWN)}</LineLocationReference>"
    reference = f"<XMLLocationReference>{inner}</XMLLocationReference>"
    if draws.randrange(20) == 0:
        return f"<OpenLR><LocationID>{number}{reference}</LocationID></OpenLR>"
    return f"<OpenLR><LocationID>{number}</LocationID>{reference}<n>5</n></OpenLR>"


def _points(draws: random.Random, names: dict[str, str]) -> str:
    """The fields of a reference of some points, perhaps with offsets."""

    def element(name: str, *inner: object) -> str:
        return f"<{names[name]}>{''.join(map(str, inner))}</{names[name]}>"

    words = FORMS.split()
    if names is OWN:
        words = [re.sub("(?=[A-Z])", "_", word).upper() for word in words]
    points = []
    for is_last in [False] * draws.choice((*[1] * 12, *[2] * 6, 3, 32)) + [True]:
        lon, lat = (f"{draws.uniform(0, 0.1):.{draws.randrange(4, 8)}f}" for _ in range(2))
        place = element("place", element("lon", lon), element("lat", lat))
        road = [
            element("class", f"FRC{draws.randrange(8)}"),
            element("form", draws.choice(words)),
            element("sector", draws.randrange(361)),
        ]
        path = element("lowest", f"FRC{draws.randrange(9)}"), element(
            "interval", draws.randrange(16_000)
        )
        road = road[:: draws.choice((-1, *[1] * 50))]
        inner = place, element("road", *road)
        points.append(
            element("last", *inner) if is_last else element("first", *inner, element("path", *path))
        )
    if draws.randrange(5) == 0:
        points.append(element("offsets", element("positive", draws.randrange(300))))
    if draws.randrange(30) == 0:
        points.append(element("side", draws.choice(("right", "RIGHT", "other"))))
    if draws.randrange(30) == 0:
        draws.shuffle(points)
    return "".join(points)
