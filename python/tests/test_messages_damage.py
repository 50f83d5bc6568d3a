"""Files of messages that are damaged, drawn at random: they are read, or refused in one line."""

import json
import pytest
import random
import warnings
from pathlib import Path

from olr.errors import ToolError
from olr.messages.message import Format, Reading
from olr.messages.reading import messages_of
from test_messages_json import COLLECTION, PLACED, lines
from test_messages_packed import LINES, PACKED
from test_messages_tables import made

TEXTS: dict[str, bytes] = {
    "tab": LINES,
    "csv": b"key;ref\n" + LINES.replace(b"\t", b";"),
    "json": json.dumps({"results": PLACED, "more": [1.5, None, True, "\u20ac\U0001f600"]}).encode(),
    "indented": json.dumps(COLLECTION, indent=1).encode(),
    "jsonl": lines(*PLACED).encode(),
    "jsonseq": lines(*PLACED, begin="\x1e").encode(),
    "utf-16": json.dumps(PLACED).encode("utf-16"),
}
OPTIONS: dict[str, list[Reading]] = {
    "json": [Reading(), Reading(ref="results[].location.olr", key="id", keep=("all",))],
    "indented": [Reading(), Reading(ref="olr", keep=("all",)), Reading("json", "olr")],
    "jsonl": [Reading(), Reading("jsonl", "location.olr", keep=("all",), base64="url")],
    "jsonseq": [Reading(), Reading("jsonseq", "location.olr", keep=("all",))],
}


def damaged(content: bytes, draw: random.Random) -> bytes:
    """Content with bits and bytes that are others, or cut short."""
    changed = bytearray(content)
    for _ in range(draw.choice([0, 1, 1, 2, 8])):
        at = draw.randrange(len(changed))
        changed[at] = draw.choice([changed[at] ^ 1 << draw.randrange(8), draw.randrange(256)])
        if draw.random() < 0.3:
            changed[at:at] = draw.choice(
                [b"\\ud800", b"[" * 9, b"9" * 5000, b"\xed\xa0\x80", b"\x1e"]
            )
    return bytes(changed[: draw.choice([len(changed), draw.randrange(len(changed))])])


def require_one_line(file: Path, reading: Reading) -> None:
    """Reads a file, or has it refused in one line with its name."""
    try:
        with warnings.catch_warnings():
            warnings.simplefilter("ignore")
            for message in messages_of(file, reading):
                message.reference.encode(), json.dumps(dict(message.kept)).encode()
    except ToolError as error:
        assert str(error).startswith(str(file)) and "\n" not in str(error)


@pytest.mark.parametrize("name", TEXTS)
def test_damaged_texts(tmp_path: Path, name: str) -> None:
    draw = random.Random(name)
    file = tmp_path / "messages"
    for _ in range(60):
        file.write_bytes(damaged(TEXTS[name], draw))
        for reading in OPTIONS.get(name, [Reading()]):
            require_one_line(file, reading)


@pytest.mark.parametrize("name", PACKED)
def test_damaged_packings(tmp_path: Path, name: str) -> None:
    draw = random.Random(name)
    file = tmp_path / "messages"
    for _ in range(30):
        file.write_bytes(damaged(PACKED[name](TEXTS["json"] * 9), draw))
        require_one_line(file, Reading(ref="results[].location.olr"))


@pytest.mark.parametrize("name", ["gpkg", "shp", "zip", "xlsx"])
def test_damaged_tables(tmp_path: Path, name: str) -> None:
    draw = random.Random(name)
    file = made(name, tmp_path)
    content = file.read_bytes()
    said: tuple[Format | None, ...] = (None, "xlsx") if name == "xlsx" else (None,)
    for _ in range(25):
        file.write_bytes(damaged(content, draw))
        for format in said:
            require_one_line(file, Reading(format))
