"""Mutations of a case: the words of a command line and the bytes of the files that they name.

A case is a list of words and a dictionary of files. Every mutation returns a new case, and takes all its draws from a `random.Random`.
"""

import base64
import binascii
import re
import sys
from pathlib import Path

sys.path.insert(0, str(Path(__file__).parents[1] / "python"))
from olr.model.questions import NUMBERS as NUMBERS_OF, TOLERANCES

NUMBERS = [0, 1, 2, 7, 8, 9, 10, 63, 64, 65, 255, 256, 586, 1000, 65535, 65536, 80_000_000, 80_000_001, 180_000_000, 180_000_001]
NUMBERS += [9_999_999, 10_000_000, 10_000_001, 2**31 - 1, 2**31, 2**32 - 1, 2**32, 2**53, 2**53 + 1, 10**16 - 1, 10**16, 2**63, 2**64]
BYTES = [0, 9, 10, 13, 32, 34, 43, 44, 45, 46, 47, 48, 57, 59, 61, 127, 128, 0xBF, 0xC3, 0xEF, 255]
RANGES, PLACE_RANGES, WHY_RANGES = (
    {name: number.greatest for name, number in numbers.items()}
    for numbers in ({**TOLERANCES, **NUMBERS_OF["match"]}, NUMBERS_OF["places"], NUMBERS_OF["why"])
)
# The tolerances that can be narrow enough for a reference to have no matching, each with its least value and a low one.
NARROW = {"radius": (1, 40), "bearing": (0, 1), "class": (0, 1), "percent": (0, 5), "slack": (0, 100)}
TOKENS = [b"", b" ", b"\r", b"\n", b"\r\n", b'"', b'""', b",", b";", b"-", b"0", b"00", b"+1", b"-0", b"1.5", b"1e3", b"\xef\xbb\xbf", b"\xff", b"\0"]
TOKENS += [b"id", b"none", b"9007199254740993", b"-180000001", b"99999999999999999", b"0 0", b"0 0;0 0", b"1 2;", b";1 2", b"1  2"]


def spliced(data, start, end, part):
    return data[:start] + part + data[end:]


def drawn_number(draws, near=0):
    """A number that is near another one, or one at the edge of something."""
    if draws.random() < 0.5:
        return near + draws.choice([-1000, -100, -10, -2, -1, 1, 2, 5, 10, 100, 1000, 10_000])
    number = draws.choice(NUMBERS)
    return -number if draws.random() < 0.15 else number


# Mutations of the bytes of a file, without a look at what they mean.


def change_byte(data, draws):
    if not data:
        return bytes([draws.choice(BYTES)])
    at = draws.randrange(len(data))
    if draws.random() < 0.5:
        return spliced(data, at, at + 1, bytes([data[at] ^ 1 << draws.randrange(8)]))
    return spliced(data, at, at + 1, bytes([draws.choice(BYTES)]))


def insert_bytes(data, draws):
    at = draws.randint(0, len(data))
    return spliced(data, at, at, draws.choice(TOKENS))


def delete_bytes(data, draws):
    at = draws.randint(0, len(data))
    return spliced(data, at, at + draws.choice([1, 1, 1, 2, 3, 8]), b"")


def repeat_bytes(data, draws):
    start = draws.randint(0, len(data))
    end = min(len(data), start + draws.choice([1, 2, 4, 16, 64]))
    return spliced(data, end, end, data[start:end] * draws.choice([1, 1, 2, 70]))


def cut(data, draws):
    return data[: draws.randint(0, len(data))]


# Mutations of the records of a file, which mostly keep it well-formed.


def records_of(data):
    """The lines of a file, the header first."""
    return data.split(b"\n")


def change_records(change):
    """A mutation that changes the list of the records behind the header."""

    def mutate(data, draws):
        header, *records = records_of(data)
        last = [records.pop()] if records and not records[-1] else []
        if records:
            change(records, draws)
        return b"\n".join([header, *records, *last])

    return mutate


def change_field(change):
    """A mutation that changes the list of the fields of a record; `change` also gets the fields of all records."""

    def mutate(records, draws):
        at = draws.randrange(len(records))
        fields = records[at].split(b",")
        change(fields, draws, [record.split(b",") for record in records])
        records[at] = b",".join(fields)

    return change_records(mutate)


def replace_number(data, draws):
    found = list(re.finditer(rb"-?\d+", data))
    if not found:
        return change_byte(data, draws)
    one = draws.choice(found)
    return spliced(data, one.start(), one.end(), b"%d" % drawn_number(draws, int(one.group()[:20])))


def change_digit(data, draws):
    found = list(re.finditer(rb"\d", data))
    if not found:
        return change_byte(data, draws)
    at = draws.choice(found).start()
    return spliced(data, at, at + 1, b"%d" % draws.randrange(10))


def copy_field(fields, draws, rows):
    """Takes a field of another record in its column: a node for a node, a length for a length."""
    column = draws.randrange(len(fields))
    other = draws.choice(rows)
    if column < len(other):
        fields[column] = other[column]


def swap_fields(fields, draws, _):
    first, second = draws.randrange(len(fields)), draws.randrange(len(fields))
    fields[first], fields[second] = fields[second], fields[first]


def drop_field(fields, draws, _):
    fields.pop(draws.randrange(len(fields)))


def add_field(fields, draws, _):
    fields.insert(draws.randint(0, len(fields)), draws.choice(TOKENS))


def quote_field(fields, draws, _):
    at = draws.randrange(len(fields))
    fields[at] = b'"' + fields[at] + draws.choice([b'"', b'"', b'"', b"", b'""'])


def pad_field(fields, draws, _):
    at = draws.randrange(len(fields))
    fields[at] = draws.choice([b"0", b"00", b"-", b" ", b"+", b"\t"]) + fields[at]


def set_field(fields, draws, _):
    fields[draws.randrange(len(fields))] = draws.choice(TOKENS)


def drop_record(records, draws):
    records.pop(draws.randrange(len(records)))


def repeat_record(records, draws):
    records.insert(draws.randint(0, len(records)), draws.choice(records))


def swap_records(records, draws):
    first, second = draws.randrange(len(records)), draws.randrange(len(records))
    records[first], records[second] = records[second], records[first]


def shuffle_records(records, draws):
    draws.shuffle(records)


def add_like(records, draws):
    """Adds a record like another one, with an id of its own."""
    fields = draws.choice(records).split(b",")
    fields[0] = b"%d" % draws.choice([draws.randrange(1, 100), draws.randrange(1, 2**53)])
    records.insert(draws.randint(0, len(records)), b",".join(fields))


def add_reverse(records, draws):
    """Adds the opposite direction of a line."""
    fields = draws.choice(records).split(b",")
    if len(fields) == 7:
        fields[1], fields[2] = fields[2], fields[1]
        fields[6] = b";".join(fields[6].split(b";")[::-1])
    fields[0] = b"%d" % draws.randrange(1, 2**53)
    records.append(b",".join(fields))


def add_shape(records, draws):
    """Puts a point into the shape of a line."""
    at = draws.randrange(len(records))
    fields = records[at].split(b",")
    items = [item for item in fields[-1].split(b";") if item]
    near = [int(number) for number in re.findall(rb"-?\d+", items[0])] if items else []
    lon, lat = near if len(near) == 2 else (draws.randrange(2000), draws.randrange(50))
    items.insert(draws.randint(0, len(items)), b"%d %d" % (lon + draws.randrange(-300, 300), lat + draws.randrange(-300, 300)))
    fields[-1] = b";".join(items * draws.choice([1] * 9 + [40]))
    records[at] = b",".join(fields)


def change_line_ends(data, draws):
    return data.replace(b"\n", draws.choice([b"\r\n", b"\r", b"\n\n", b"\n\r\n"]))


ON_BYTES = [change_byte, insert_bytes, delete_bytes, repeat_bytes, cut, change_line_ends]
ON_RECORDS = [replace_number, change_digit, change_digit] + [
    change_field(change) for change in (copy_field, copy_field, swap_fields, drop_field, add_field, quote_field, pad_field, set_field)
]
ON_RECORDS += [
    change_records(change)
    for change in (drop_record, repeat_record, swap_records, shuffle_records, add_like, add_like, add_reverse, add_reverse, add_shape)
]


# Mutations of the reference.


def change_bytes_of(data, draws):
    """Another reference: most changes leave it one."""
    data = bytearray(data)
    how = draws.randrange(8)
    if how == 0 and len(data) > 9:  # the intervals, the attributes and the points near the first one
        data[draws.randrange(7, len(data))] = draws.randrange(256)
    elif how == 1:
        data += bytes(draws.randrange(256) for _ in range(draws.choice([1, 1, 2, 7])))
    elif how == 2 and data:
        del data[-draws.choice([1, 1, 2, 7]) :]
    elif how == 3 and len(data) > 15:  # one more point, beside another one
        at = 10 + 7 * draws.randrange((len(data) - 9) // 7)
        data[at:at] = bytes([0, draws.randrange(50), 0, draws.randrange(3)]) + bytes(data[at - 3 : at])
    elif how == 4 and len(data) > 15:  # one point fewer
        del data[10:17]
    elif how == 5 and data:
        data[0] = draws.choice([0x0B, 0x2B, 0x8B, 0x0A, 0x4B, 0x23, 0x03, draws.randrange(256)])
    elif how == 6 and len(data) > 15:  # an offset, with its flag
        data[-1] ^= draws.choice([0x20, 0x40])
        data.append(draws.randrange(256))
    elif data:
        data[draws.randrange(len(data))] ^= 1 << draws.randrange(8)
    return bytes(data)


def change_text(text, draws):
    """Other text, which is mostly no base64."""
    how = draws.randrange(6)
    at = draws.randint(0, len(text))
    if how == 0:
        return text[:at] + draws.choice("=+/-_ \t\n\rAaé€ ,\"'") + text[at:]
    if how == 1:
        return text[:at] + text[at + 1 :]
    if how == 2:
        return draws.choice([" ", "\n", "\t \r\n"]) + text + draws.choice(["", " ", "\n"])
    if how == 3:
        return text[:at]
    if how == 4:
        return text * draws.choice([2, 3, 20])
    return text.rstrip("=") if draws.random() < 0.5 else text.swapcase()


def change_reference(text, draws):
    if draws.random() < 0.15:
        return change_text(text, draws)
    try:
        data = base64.b64decode(text, validate=True)
    except (binascii.Error, ValueError):
        return change_text(text, draws)
    for _ in range(draws.choice([1, 1, 1, 2, 3])):
        data = change_bytes_of(data, draws)
    return base64.b64encode(data).decode()


# Mutations of cursors and of other words.


def change_cursor(text, draws):
    how = draws.randrange(6)
    numbers = list(re.finditer(r"\d+", text.split("@")[0]))
    if how <= 1 and numbers:
        one = draws.choice(numbers)
        return spliced(text, one.start(), one.end(), str(max(0, int(one.group()) + draws.choice([-5, -1, 1, 1, 5, 64]))))
    if how == 2:
        return text.split("@")[0]
    if how == 3:
        return text[: draws.randint(0, len(text))]
    if how == 4:
        ranks = draws.choice([".1", ".1.1", ".1" * 40, ".0", ".01", ".65"])
        return text.replace("@", ranks + "@") if "@" in text else text + ranks
    at = draws.randint(0, len(text))
    return text[:at] + draws.choice("0123456789abcdefAF.:@ -+") + text[at + 1 :]


def number_of(words, draws):
    """The name of an option that takes a number: mostly one that the command has."""
    tolerances = [name for name in RANGES if name != "page"]
    own = list(PLACE_RANGES) if "places" in words[:2] else list(WHY_RANGES) if "why" in words[:2] else ["page"]
    if draws.random() < 0.05:
        return draws.choice([*RANGES, *PLACE_RANGES, *WHY_RANGES])
    return draws.choice(tolerances if draws.random() < 0.7 else own)


def value_of(name, draws):
    most = {**RANGES, **PLACE_RANGES, **WHY_RANGES}[name]
    if draws.random() < 0.85:
        return str(draws.randint(0, min(most, 10 ** draws.choice([1, 2, 3, 4]) if name in PLACE_RANGES else most)))
    return draws.choice([str(most), str(most + 1), "0", "-1", "", "+3", "007", "4294967295", "4294967296", "3.0", "x", "１"])


def with_option(words, name, value):
    """The words with an option, in place of one of its name."""
    words = list(words)
    if name in words[:-1]:
        words[words.index(name) + 1] = value
        return words
    return [*words, name, value]


def change_words(words, draws):
    """Other options, mostly well-formed ones."""
    how = draws.randrange(12)
    if how < 6:
        name = number_of(words, draws)
        return with_option(words, f"--{name}", value_of(name, draws))
    if how == 6:
        return with_option(words, "--format", draws.choice(["json", "json", "text", "xml", ""]))
    if how == 7:
        return [word for word in words if word != "--all"] if "--all" in words else [*words, "--all"]
    if how == 8 and words:
        return [draws.choice(["show", "candidates", "match", "places", "why", "help", "-V"]), *words[1:]]
    if how == 9 and words:
        at = draws.randrange(len(words))
        return words[:at] + words[at + 1 :]
    if how == 10 and words:
        at = draws.randrange(len(words))
        return words[:at] + [draws.choice([*words, "--", "-", "", "--help", "--bogus", "nowhere"])] + words[at:]
    name = number_of(words, draws)
    return [*words, f"--{name}={value_of(name, draws)}"]


def drawn_bans(lines, draws):
    """A file of bans on turns of a file of lines, mostly ones that there are."""
    rows = [row.split(b",") for row in records_of(lines)[1:] if row.count(b",") == 6]
    if not rows:
        return b"from,to\n"
    bans = []
    for _ in range(draws.choice([1, 1, 2, 5, 20])):
        first = draws.choice(rows)
        ahead = [row for row in rows if row[1] == first[2]] or rows
        second = draws.choice(ahead if draws.random() < 0.95 else rows)
        bans.append(first[0] + b"," + second[0])
    if draws.random() < 0.9:
        bans = list(dict.fromkeys(bans))
    return b"\n".join([b"from,to", *bans, b""])


def file_named(words, option):
    """The name of the file of an option, if the words have it."""
    return words[words.index(option) + 1] if option in words[:-1] else None


# Places.


def without(words, sizes):
    """The words without these options, each with the number of its words."""
    words, at = list(words), 0
    while at < len(words):
        name = words[at].split("=")[0]
        size = (1 if "=" in words[at] else sizes[name]) if name in sizes else 0
        del words[at : at + size]
        at += size == 0
    return words


def as_places(words, draws):
    """The places of what a case matches."""
    words = without(words, {"--all": 1, "--after": 2, "--page": 2})
    for name in PLACE_RANGES:
        if draws.random() < 0.4:
            words += [f"--{name}", value_of(name, draws)]
    return ["places", *words[1:]]


def as_match(words):
    """The matchings of which a case asks for the places."""
    return ["match", *without(words[1:], {f"--{name}": 2 for name in PLACE_RANGES})]


# Why there is no matching.


def as_why(words, draws):
    """Why there is no matching of what a case matches, mostly with tolerances that leave little."""
    words = ["why", *without(words[1:], {"--all": 1, "--after": 2, "--page": 2})]
    for name, (least, low) in NARROW.items():
        if draws.random() < 0.25:
            words = with_option(words, f"--{name}", str(draws.randint(least, low)))
    return [*words, "--nearest", value_of("nearest", draws)] if draws.random() < 0.4 else words


def with_remedy(words, option, value):
    """The first matching of a case that asks why, with what would help; None where the words leave no place for it."""
    if "--" in words or (value is None and any(word.split("=")[0] == "--map" for word in words)):
        return None
    name = "--bans" if value is None else f"--{option}"
    words = without(words[1:], {"--nearest": 2, "--format": 2, name: 2})
    return ["match", *words, "--page", "1", *([] if value is None else [name, str(value)])]


# Batches.

# The file of the records of a batch. It is the standard input where the words don't name it.
RECORDS = "records"
KEYS = ["", "", "key\t", "\t", "a\tb\t", "\u00e9\"\\\t", "\u0001\u2028\t"]


def drawn_records(text, draws):
    """The records of a batch: a reference, others like it, and what is none."""
    data = b""
    for _ in range(draws.choice([0, 1, 2, 3, 6])):
        record = change_reference(text, draws) if draws.random() < 0.5 else text
        data += (draws.choice(KEYS) + record).encode() + draws.choice([b"\n", b"\n", b"\r\n", b"\n\n"])
    if draws.random() < 0.05:
        data += draws.choice([65_535, 65_536, 65_537]) * draws.choice([b"C", b"\t", b"\xff"]) + draws.choice([b"", b"\n", b"\r\n"])
    if draws.random() < 0.3:
        data = data.rstrip(b"\r\n")
    for _ in range(draws.choice([0, 0, 1, 2])):
        data = draws.choice(ON_BYTES)(data, draws)
    return data


def as_batch(words, files, draws):
    """A batch that asks for the same as a case that reads a map."""
    options = without(words[2:], {"--all": 1, "--after": 2, "--format": 2}) if draws.random() < 0.9 else words[2:]
    named = ["--input", RECORDS] if draws.random() < 0.5 else []
    return ["batch", words[0], *options, *named], {**files, RECORDS: drawn_records(words[1], draws)}


def mutated(words, files, draws):
    """A case with one change."""
    words, files = list(words), dict(files)
    named = [name for name in (file_named(words, option) for option in ("--nodes", "--lines", "--bans")) if name in files]
    how = draws.random()
    if named and how < 0.5:
        name = draws.choice(named)
        files[name] = draws.choice(ON_RECORDS if draws.random() < 0.8 else ON_BYTES)(files[name], draws)
    elif len(words) > 1 and how < 0.75:
        words[1] = change_reference(words[1], draws)
    elif how < 0.85 and file_named(words, "--lines") in files and words[0] != "show":
        files["drawn-bans"] = drawn_bans(files[file_named(words, "--lines")], draws)
        words = with_option(words, "--bans", "drawn-bans")
    elif "--after" in words[:-1] and how < 0.9:
        words = with_option(words, "--after", change_cursor(words[words.index("--after") + 1], draws))
    else:
        words = change_words(words, draws)
    return words, files
