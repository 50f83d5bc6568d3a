#!/usr/bin/python3
"""Measures what reading a file of messages takes: records a second, and memory.

    bench/messages.py [--kind KIND ...] [--megabytes 100] [--seed 1] [--folder /tmp]

Draws a file of each kind in the folder, of as many megabytes (1,000,000 bytes) before it is packed, and reads it as all commands do, in a process of its own.
Rates are those of processor time, so others on the machine matter little. The memory is the most that the process had, with Python and its libraries. The
same seed gives the same text on every machine. The files are taken away again. It needs what ./olr-tools setup installs.
"""

import argparse
import base64
import gzip
import json
import random
import re
import struct
import subprocess
import sys
import tempfile
import time
from itertools import chain, count, islice
from pathlib import Path

sys.path.insert(0, str(Path(__file__).resolve().parents[1] / "python"))

from olr.messages.message import Reading  # noqa: E402
from olr.messages.reading import messages_of  # noqa: E402

MOST_ROWS = 200_000
"""Of a GeoPackage or a workbook, which take long to write."""
BLOCK = 1000
"""Records that are written at once."""
FORMS = "undefined motorway multipleCarriageway singleCarriageway roundabout trafficSquare slipRoad other".split()
DATEX = {
    "point": "openlrLocationReferencePoint",
    "last": "openlrLastLocationReferencePoint",
    "place": "openlrCoordinates",
    "lon": "longitude",
    "lat": "latitude",
    "road": "openlrLineAttributes",
    "class": "openlrFunctionalRoadClass",
    "form": "openlrFormOfWay",
    "bearing": "openlrBearing",
    "path": "openlrPathAttributes",
    "lowest": "openlrLowestFRCToNextLRPoint",
    "distance": "openlrDistanceToNextLRPoint",
    "forms": FORMS,
}
OWN = {
    "point": "LocationReferencePoint",
    "last": "LastLocationReferencePoint",
    "place": "Coordinates",
    "lon": "Longitude",
    "lat": "Latitude",
    "road": "LineAttributes",
    "class": "FRC",
    "form": "FOW",
    "bearing": "BEAR",
    "path": "PathAttributes",
    "lowest": "LFRCNP",
    "distance": "DNP",
    "forms": [re.sub("(?=[A-Z])", "_", form).upper() for form in FORMS],
}
"""Names of elements and words, in DATEX II and in OpenLR's own schema."""
LINE = struct.Struct(">B bHbH BBB hh BBB hh BB")
"""The bytes of a line of three points."""


def drawn_binary(draws):
    """A reference of three points in base64: places in Europe, and all else drawn."""
    road = [draws.randrange(64) for _ in range(3)]
    path = [draws.randrange(256) for _ in range(4)]
    steps = [draws.randrange(-20_000, 20_000) for _ in range(4)]
    start = draws.randrange(0, 16), draws.randrange(1 << 16), draws.randrange(30, 45), draws.randrange(1 << 16)
    values = [11, *start, road[0], *path[:2], *steps[:2], road[1], *path[2:], *steps[2:], road[2], draws.randrange(32)]
    return base64.b64encode(LINE.pack(*values)).decode()


def drawn_elements(draws, names):
    """A reference of three points in element form: degrees with six digits, and whole degrees and metres."""

    def element(name, *inner):
        return f"<{names[name]}>{''.join(inner)}</{names[name]}>"

    lon, lat = draws.uniform(0, 25), draws.uniform(40, 60)
    points = []
    for at in range(3):
        lon, lat = lon + draws.uniform(-0.05, 0.05), lat + draws.uniform(-0.05, 0.05)
        place = element("place", element("lon", f"{lon:.6f}"), element("lat", f"{lat:.6f}"))
        form = element("form", draws.choice(names["forms"]))
        road = element("road", element("class", f"FRC{draws.randrange(8)}"), form, element("bearing", f"{draws.randrange(360)}"))
        lowest, distance = element("lowest", f"FRC{draws.randrange(8)}"), element("distance", f"{draws.randrange(15_000)}")
        points.append(element("last", place, road) if at == 2 else element("point", place, road, element("path", lowest, distance)))
    return "".join(points)


def lines(draws):
    for number in count(1):
        yield f"m{number}\t{drawn_binary(draws)}\n"


def csv(draws):
    yield "key,road,ref\n"
    for number in count(1):
        yield f'm{number},"Street {draws.randrange(1000)}",{drawn_binary(draws)}\n'


def members(draws):
    """Records of JSON."""
    for number in count(1):
        yield {"key": f"m{number}", "road": f"Street {draws.randrange(1000)}", "speed": draws.randrange(130), "ref": drawn_binary(draws)}


def json_lines(draws):
    return (json.dumps(record) + "\n" for record in members(draws))


def document(draws):
    """A document with an array of objects, indented."""
    yield '{\n  "time": "2026-01-01T00:00:00Z",\n  "records": [\n'
    for at, record in enumerate(members(draws)):
        inner = json.dumps(record, indent=2).replace("\n", "\n    ")
        yield f"{',' * (at > 0)}\n    {inner}"


def situations(draws, reference):
    """DATEX II, version 2, indented outside of references."""
    yield '<?xml version="1.0" encoding="UTF-8"?>\n<d2LogicalModel xmlns="http://datex2.eu/schema/2/2_0">\n'
    for number in count(1):
        yield (
            f'  <situation id="s{number}">\n    <situationRecord id="m{number}">\n      <probabilityOfOccurrence>certain</probabilityOfOccurrence>\n'
            f"      <groupOfLocations><linear><openlrExtendedLinear>{reference(draws)}</openlrExtendedLinear></linear></groupOfLocations>\n"
            f"    </situationRecord>\n  </situation>\n"
        )


def situations_in_binary(draws):
    return situations(draws, lambda draws: f"<openlrBinary>{drawn_binary(draws)}</openlrBinary>")


def situations_in_elements(draws):
    return situations(draws, lambda draws: f"<firstDirection>{drawn_elements(draws, DATEX)}</firstDirection>")


def own_locations(draws):
    """OpenLR's own schema."""
    yield '<?xml version="1.0"?>\n<feed>\n'
    for number in count(1):
        inner = f"<LineLocationReference>{drawn_elements(draws, OWN)}</LineLocationReference>"
        yield f"<OpenLR><LocationID>m{number}</LocationID><XMLLocationReference>{inner}</XMLLocationReference></OpenLR>\n"


def write_text(texts, end, file, megabytes):
    """Writes texts until there are enough megabytes, and an end."""
    left = int(1_000_000 * megabytes)
    opened = gzip.open(file, "wb", 6) if file.suffix == ".gz" else file.open("wb")
    with opened as stream:
        while left > 0:
            block = "".join(islice(texts, BLOCK)).encode()
            stream.write(block)
            left -= len(block)
        stream.write(end.encode())


def rows(draws, size, megabytes):
    """As many rows of a table as have the megabytes, with so many bytes each, but not too many."""
    return islice(members(draws), min(MOST_ROWS, int(1_000_000 * megabytes / size)))


def write_layer(draws, file, megabytes):
    """Writes a GeoPackage of records without geometries."""
    import fiona

    schema = {"geometry": "None", "properties": {"key": "str", "road": "str", "speed": "int", "ref": "str"}}
    with fiona.open(file, "w", driver="GPKG", layer="messages", schema=schema) as layer:
        layer.writerecords({"geometry": None, "properties": row} for row in rows(draws, 75, megabytes))


def write_sheet(draws, file, megabytes):
    """Writes a workbook."""
    import openpyxl

    book = openpyxl.Workbook(write_only=True)
    sheet = book.create_sheet("messages")
    sheet.append(["key", "road", "speed", "ref"])
    for row in rows(draws, 75, megabytes):
        sheet.append(list(row.values()))
    book.save(file)


def text_kind(texts, end=""):
    """What writes a kind that is text."""
    return lambda draws, file, megabytes: write_text(chain(texts(draws)), end, file, megabytes)


JSON_END, DATEX_END = "\n  ]\n}\n", "</d2LogicalModel>\n"
KINDS = {
    "lines": (text_kind(lines), ".tsv"),
    "csv": (text_kind(csv), ".csv"),
    "json-lines": (text_kind(json_lines), ".jsonl"),
    "json": (text_kind(document, JSON_END), ".json"),
    "json-gz": (text_kind(document, JSON_END), ".json.gz"),
    "json-looked-through": (text_kind(document, JSON_END), ".json"),
    "xml-binary": (text_kind(situations_in_binary, DATEX_END), ".xml"),
    "xml-binary-gz": (text_kind(situations_in_binary, DATEX_END), ".xml.gz"),
    "xml-elements": (text_kind(situations_in_elements, DATEX_END), ".xml"),
    "xml-elements-gz": (text_kind(situations_in_elements, DATEX_END), ".xml.gz"),
    "xml-own": (text_kind(own_locations, "</feed>\n"), ".xml"),
    "geopackage": (write_layer, ".gpkg"),
    "workbook": (write_sheet, ".xlsx"),
}
"""What writes each kind, and the suffix of its files."""
NAMED = {"json": "records[].ref", "json-gz": "records[].ref"}
"""What `--ref` says. Where references of JSON aren't in `ref` and it says nothing, a file is looked through first."""


def read(file, kind):
    """Reads a file, and prints how many records it has, how many of them have a fault, the seconds of a processor, and the most memory in kB."""
    start = time.process_time()
    records = faults = 0
    for message in messages_of(file, Reading(ref=NAMED.get(kind))):
        records += 1
        faults += message.fault is not None
    seconds = time.process_time() - start
    most = re.search(r"VmHWM:\s+(\d+) kB", Path("/proc/self/status").read_text())[1]
    print(records, faults, seconds, most)


def measure(kind, folder, chosen):
    """A row of the table for a kind."""
    write, suffix = KINDS[kind]
    file = Path(folder, f"messages{suffix}")
    write(random.Random(chosen.seed), file, chosen.megabytes)
    command = [sys.executable, __file__, "--read", file, "--kind", kind]
    words = subprocess.run(command, stdout=subprocess.PIPE, check=True, text=True).stdout.split()
    records, faults, seconds, most = int(words[0]), int(words[1]), float(words[2]), int(words[3])
    size = file.stat().st_size / 1e6
    file.unlink()
    per = records / seconds, size / seconds
    print(f"| `{kind}` | {size:,.0f} | {records:,} | {faults:,} | {seconds:.1f} | {per[0]:,.0f} | {per[1]:.1f} | {most / 1024:.0f} |", flush=True)


def main():
    parser = argparse.ArgumentParser(description=__doc__, formatter_class=argparse.RawDescriptionHelpFormatter)
    parser.add_argument("--kind", choices=KINDS, nargs="+", default=list(KINDS))
    parser.add_argument("--megabytes", type=float, default=100)
    parser.add_argument("--seed", type=int, default=1)
    parser.add_argument("--folder", type=Path, default=Path(tempfile.gettempdir()), help="where files are written meanwhile")
    parser.add_argument("--read", type=Path, help=argparse.SUPPRESS)
    chosen = parser.parse_args()
    if chosen.read:
        read(chosen.read, chosen.kind[0])
        return
    print("| kind | MB | records | with a fault | processor, s | records a second | MB a second | memory, MiB |")
    print("|---|---|---|---|---|---|---|---|")
    with tempfile.TemporaryDirectory(prefix="olr-bench.", dir=chosen.folder) as folder:
        for kind in chosen.kind:
            measure(kind, folder, chosen)


if __name__ == "__main__":
    main()
