"""Small maps drawn at random, and damage to their files. The same seed gives the same files."""

import random

Files = dict[str, bytes]
"""The bytes of each file by its name, such as `nodes.csv`."""

LETTERS = [bytes([byte]) for byte in b'0123456789-+,;"\r\n. \tax\x00']
LETTERS += [b"\xef\xbb\xbf", "é".encode(), b"\xff", b"\xb2", b"\r\n", b'""', b"\x85"]
TEXTS = [b"", b"0", b"1", b"7", b"8", b"-1", b"-0", b"9007199254740992", b"9007199254740993"]
TEXTS += [b"00000000000000001", b"0000000000000001", b"180000000", b"180000001", b"-180000000"]
TEXTS += [b"80000000", b"80000001", b"-80000001", b"10000000", b"10000001", b"7.415720", b"1 2"]
TEXTS += [b"1 2;3 4", b"1 2;1 2", b"1 2;", b";1 2", b"1  2", b"1 80000001", b"180000001 1", b"x"]
TEXTS += [b";".join(b"%d 5" % n for n in range(count)) for count in (63, 64, 65)]


def draw_files(draw: random.Random) -> Files:
    """The files of a map without a fault."""
    ids = draw.sample(range(1, 30), draw.randint(1, 6))
    places = draw.sample(range(100), len(ids))
    nodes: list[list[object]] = [[id, place % 10, place // 10] for id, place in zip(ids, places)]
    lines: list[list[object]] = []
    for id in draw.sample(range(1, 40), draw.randint(0, 8)):
        start, end = draw.choice(ids), draw.choice(ids)
        shape = ";".join(f"{100 + n} {draw.randint(-5, 5)}" for n in range(draw.randint(0, 3)))
        if start == end and not shape:
            shape = "100 0"
        kinds = draw.randint(0, 7), draw.randint(0, 7)
        lines.append([id, start, end, *kinds, draw.randint(1, 50), shape])
    turns = [(a[0], b[0]) for a in lines for b in lines if a[2] == b[1]]
    bans: list[list[object]] = [
        list(turn) for turn in draw.sample(turns, draw.randint(0, min(3, len(turns))))
    ]
    files = {
        "nodes.csv": _text(draw, ["id,lon,lat"], nodes),
        "lines.csv": _text(draw, ["id,from,to,class,form,length,shape"], lines),
    }
    if draw.random() < 0.7:
        files["bans.csv"] = _text(draw, ["from,to"], bans)
    return files


def _text(draw: random.Random, header: list[str], rows: list[list[object]]) -> bytes:
    """A file of CSV, in one of the ways to write it."""
    ends = draw.choice(["\n", "\r\n", "\r", "\n\n"])
    quotes = draw.random() < 0.2
    records = header + [",".join(f'"{f}"' if quotes else str(f) for f in row) for row in rows]
    mark = "\ufeff" if draw.random() < 0.1 else ""
    return (mark + ends.join(records) + draw.choice([ends, ""])).encode()


def damage(draw: random.Random, files: Files) -> Files:
    """The files with up to three changes: of a byte or two, of a field, or of whole records."""
    changed = dict(files)
    for _ in range(draw.randint(0, 3)):
        name = draw.choice(sorted(changed))
        change = draw.choice([_change_bytes, _change_field, _change_field, _change_records])
        changed[name] = change(draw, changed[name])
    return changed


def _change_bytes(draw: random.Random, text: bytes) -> bytes:
    """A byte replaced, taken out, or put in."""
    place, letter = draw.randint(0, len(text)), draw.choice(LETTERS)
    return text[:place] + draw.choice([letter, b""]) + text[place + draw.randint(0, 1) :]


def _change_field(draw: random.Random, text: bytes) -> bytes:
    """A field with another text, or with that of another field."""
    records = [record.split(b",") for record in text.split(b"\n")]
    record = draw.choice(records)
    fields = [field for other in records for field in other]
    record[draw.randrange(len(record))] = draw.choice([draw.choice(TEXTS), draw.choice(fields)])
    return b"\n".join(b",".join(record) for record in records)


def _change_records(draw: random.Random, text: bytes) -> bytes:
    """A record twice, taken out, or elsewhere; or a file cut short."""
    records = text.split(b"\n")
    record = draw.choice(records)
    change = draw.randrange(4)
    if change == 0:
        return text[: draw.randint(0, len(text))]
    if change == 1:
        records.remove(record)
    if change == 2:
        records.append(record)
    if change == 3:
        draw.shuffle(records)
    return b"\n".join(records)
