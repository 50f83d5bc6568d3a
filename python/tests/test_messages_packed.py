"""Packed files of messages: each packing, on standard input too; what is damaged, and what is made to fill a disk."""

import bz2
import gzip
import io
import lzma
import os
import pytest
import random
import threading
import zipfile
import zstandard
from collections.abc import Callable
from pathlib import Path

import olr
from olr.errors import ToolError
from olr.messages import packed
from olr.messages.message import Reading
from olr.messages.opening import as_file, opened
from olr.messages.reading import format_in, messages_of
from olr.running.records import read_records
from test_extras import run_without
from test_messages import LINES as text_lines, MESSAGES, ONE, give

LINES = text_lines.encode()
RANDOM = random.Random(5)
LONG = "".join(f"{RANDOM.random()}\t{ONE}\n" for _ in range(3000)).encode()


def zipped(data: bytes, *names: str, method: int = zipfile.ZIP_DEFLATED) -> bytes:
    """An archive with the same file some times."""
    made = io.BytesIO()
    with zipfile.ZipFile(made, "w", method) as archive:
        for name in names or ("messages.tsv",):
            archive.writestr(name, data)
    return made.getvalue()


PACKED: dict[str, Callable[[bytes], bytes]] = {
    "gz": gzip.compress,
    "bz2": bz2.compress,
    "xz": lzma.compress,
    "zst": zstandard.ZstdCompressor().compress,
    "zip": zipped,
}


@pytest.fixture
def file(tmp_path: Path) -> Path:
    return tmp_path / "messages"


def refused(file: Path) -> str:
    """What is said of a file, on one line, behind its name."""
    with pytest.raises(ToolError) as raised:
        list(olr.read_messages(file))
    said = str(raised.value)
    assert "\n" not in said and said.startswith(f"{file} ")
    return said.removeprefix(f"{file} ")


@pytest.mark.parametrize("name", PACKED)
def test_packings(file: Path, name: str, monkeypatch: pytest.MonkeyPatch) -> None:
    """Of each format, in UTF-16 too, from a file, standard input or a pipe."""
    table = "key;ref\n" + LINES.decode().replace("\t", ";")
    for data in (LINES, b"\xef\xbb\xbf" + LINES, table.encode("utf-16"), b"\n" * 9 + LINES):
        content = PACKED[name](data)
        file.write_bytes(content)
        assert list(olr.read_messages(file)) == MESSAGES
        give(monkeypatch, content)
        assert list(olr.read_messages("-")) == MESSAGES
    assert format_in(file, Reading()) == "tab"
    file.unlink()
    os.mkfifo(file)
    writer = threading.Thread(target=lambda: file.write_bytes(content))
    writer.start()
    assert list(olr.read_messages(file)) == MESSAGES
    writer.join()


@pytest.mark.parametrize("name", PACKED)
def test_a_run_reads_them_twice(name: str, monkeypatch: pytest.MonkeyPatch) -> None:
    give(monkeypatch, PACKED[name](LINES))
    with as_file(Path("-")) as copy:
        for _ in range(2):
            assert [one.number for one in read_records(copy, Reading(), "x")] == [1, 2]


@pytest.mark.parametrize("name", ["gz", "bz2", "xz", "zst"])
def test_parts_behind_each_other(file: Path, name: str) -> None:
    pack = PACKED[name]
    file.write_bytes(b"".join(map(pack, (LINES[:7], LINES[7:], b"", b""))))
    assert list(olr.read_messages(file)) == MESSAGES


@pytest.mark.parametrize("name", ["gz", "xz"])
def test_zeros_at_the_end(file: Path, name: str) -> None:
    """Tapes and some devices add them."""
    file.write_bytes(PACKED[name](LINES) + bytes(8))
    assert list(olr.read_messages(file)) == MESSAGES


@pytest.mark.parametrize("name", PACKED)
def test_what_is_cut_short(file: Path, name: str) -> None:
    content = PACKED[name](LONG)
    for size in (8, 40, len(content) // 2, len(content) - 1):
        file.write_bytes(content[:size])
        said = refused(file)
        assert said.startswith("can't be unpacked: ") and said.endswith(": copy the file again")


@pytest.mark.parametrize("name", PACKED)
def test_what_is_damaged(file: Path, name: str) -> None:
    """Each packing but the plain bytes of zstd has a checksum: what is read then is what was packed, or it is refused."""
    content = PACKED[name](LONG)
    whole = [
        (key, text)
        for key, _, text in (line.partition("\t") for line in LONG.decode().splitlines())
    ]
    for _ in range(12):
        damaged = bytearray(content)
        damaged[RANDOM.randrange(len(content))] ^= 1 << RANDOM.randrange(8)
        file.write_bytes(damaged)
        try:
            assert list(olr.read_messages(file)) == whole or name == "zst"
        except ToolError as error:
            assert "\n" not in str(error)


def test_archives(file: Path) -> None:
    file.write_bytes(zipped(LINES, "day/", "day/messages.tsv", "__MACOSX/day/._messages.tsv"))
    assert list(olr.read_messages(file)) == MESSAGES
    file.write_bytes(zipped(LINES, method=zipfile.ZIP_STORED))
    assert list(olr.read_messages(file)) == MESSAGES
    file.write_bytes(zipped(LINES, "a.tsv", "b.tsv"))
    assert refused(file) == "has 2 files, and not one: unpack it, and name one: a.tsv, b.tsv"
    file.write_bytes(zipped(LINES, "day/"))
    assert refused(file) == "has 0 files, and not one: unpack it, and name one: none"
    file.write_bytes(zipped(LINES, method=zipfile.ZIP_LZMA))
    assert "another method than deflate: unpack it first, by unzip" in refused(file)
    locked = bytearray(zipped(LINES))
    for begin, at in ((b"PK\3\4", 6), (b"PK\1\2", 8)):
        locked[locked.index(begin) + at] |= 1
    file.write_bytes(locked)
    assert refused(file) == "is encrypted: unpack it first"


def test_what_is_packed_twice(file: Path) -> None:
    file.write_bytes(zipped(gzip.compress(LINES)))
    assert refused(file) == "is packed twice: unpack it first"


@pytest.mark.parametrize("name", PACKED)
def test_bombs(file: Path, name: str, monkeypatch: pytest.MonkeyPatch) -> None:
    """What grows beyond both limits ends at them, with little memory; what is beyond one of them is read."""
    monkeypatch.setattr(packed, "LEAST_REFUSED", 1 << 17)
    monkeypatch.setattr(packed, "MOST_TIMES", 100)
    most = 0
    file.write_bytes(PACKED[name](b"\n" * (1 << 19) + LINES))
    with pytest.raises(packed.Unpackable, match="becomes more than 0 MiB and 100"):
        with opened(file) as pieces:
            for piece in pieces:
                most += len(piece)
    assert most <= 1 << 17
    file.write_bytes(PACKED[name](b"\n" * (1 << 16) + LINES))
    assert len(list(messages_of(file, Reading()))) == 2
    monkeypatch.setattr(packed, "MOST_TIMES", 1 << 24)
    file.write_bytes(PACKED[name](b"\n" * (1 << 19) + LINES))
    assert len(list(messages_of(file, Reading()))) == 2


def test_the_limits_of_bombs() -> None:
    assert (packed.LEAST_REFUSED, packed.MOST_TIMES) == (1 << 30, 1000)


def test_windows(file: Path) -> None:
    """What has to look back further than 128 MiB is refused before that memory is taken."""
    for name, content in (
        ("xz", lzma.compress(LINES, filters=[{"id": lzma.FILTER_LZMA2, "dict_size": 256 << 20}])),
        ("zst", of_window(28)),
    ):
        file.write_bytes(content)
        assert refused(file).startswith("can't be unpacked: "), name
    file.write_bytes(of_window(27))
    assert len(list(olr.read_messages(file))) == 2


def of_window(bits: int) -> bytes:
    """Lines in a frame of zstd that says how far it looks back."""
    parameters = zstandard.ZstdCompressionParameters.from_level(1, window_log=bits)
    packing = zstandard.ZstdCompressor(compression_params=parameters).compressobj()
    return packing.compress(LINES) + packing.flush()


def test_zstd_without_its_module(file: Path) -> None:
    file.write_bytes(PACKED["zst"](LINES))
    ended = run_without(
        "top == 'zstandard'",
        """
import olr
try:
    list(olr.read_messages(sys.argv[2]))
except olr.ToolError as error:
    print(error)
""",
        file,
    )
    assert ended.stdout == (
        "unpacking zstd needs the module zstandard: on Debian run olr-tools setup (python3-zstandard), "
        "elsewhere install the extra olr[feeds] of the wheel\n"
    )
