#!/usr/bin/env python3
"""Gives drawn records to one process of `answer`, and compares each line with what a run of its own prints for the same words.

    attacks/answers.py [--program PATH..] [--records 400] [--seed 1]

Words: a run of its own gets the words of a record, those for the files of the map, and `--format json` where the record has no format. Where it ends
with status 2, prints help, or text, the fault of the line is `Words` and a text of one line. So it is where the words name a file or all pages, or ask
for a command that isn't answered. Else the line has the fault or the object that the run prints, with the cursors of its answer without their marks.

Order: the same records in another order and written in other pieces have the same answers. Batches: `batch WHAT OPTIONS` prints for a text what
`answer` prints for `WHAT OPTIONS -- TEXT`, by the byte. That a line comes before the next record is written, and how much memory many records take,
tries `records.py`.
"""

import collections
import json
import os
import random
import re
import subprocess
import tempfile
import threading

from drawn_words import KEYS, LONGEST, TOLERANCES, Records, along_a_line
from trials import TOP, GivenUp, bound, flaw_of, in_own_folder, main, shown

TOWN = ["--nodes", "town.nodes", "--lines", "town.lines", "--bans", "town.bans"]
OTHER = TOWN[:4]  # a map of another fingerprint
OF_BATCH = ("candidates", "match", "places", "why")
# A program that has no `legs` and no `lines` says so of its words, and `answer` does.
ON_MAP = (*OF_BATCH, "legs", "lines")
OF_FILES = ("--map", "--nodes", "--lines", "--bans", "--input", "--confidence", "--all")
MARK = re.compile(rb'@[0-9a-f]{64}"')
NUMBER = re.compile(rb',"record":\d+}\n$')
GIVEN = "given.records"
TEXTS_OF_A_BATCH = 40


def references():
    """References of the town, of no matching there, and of points along its lines."""
    rows = [row for name in ("messages", "unmatched") for row in (TOP / f"examples/{name}.tsv").read_text().splitlines()]
    found = [row.split("\t")[1] for row in rows]
    return [*found, *(along_a_line(text) for text in found if len(text) == 24 and text.endswith("=="))]


def cursors(trial, texts):
    """Cursors of references, by the reference and the number of the tolerances: of matchings, without and with marks, and of another map."""
    found = {}
    for text in texts:
        for number, words in enumerate(TOLERANCES):
            pages = [trial.run(["match", *words, *files, "--page", "1", "--", text])[1].decode() for files in (TOWN, OTHER)]
            some = re.findall(r"^(?:matching|more) (\S+)$", "".join(pages), re.MULTILINE)
            if some:
                found[text, number] = some
    if not found:
        raise GivenUp("no reference of the town has a cursor")
    return found


# What `answer` does.


def lines_of(found):
    """The lines of an output."""
    return [line + b"\n" for line in found[1].split(b"\n")[:-1]]


def answered(trial, data, draws=None):
    """The lines of one process of `answer`, to the records of a file, or to records that are written in drawn pieces."""
    (trial.folder / GIVEN).write_bytes(data)
    words = ["answer", *TOWN] + ([] if draws else ["--input", GIVEN])
    with tempfile.TemporaryFile() as errors:
        how = {"cwd": trial.folder, "stdin": subprocess.PIPE, "stdout": subprocess.PIPE, "stderr": errors}
        with subprocess.Popen([trial.program, *words], **how) as process:
            bound(process)
            writer = threading.Thread(target=write_pieces, args=(process.stdin, data, draws))
            writer.start()
            output = process.stdout.read()
            writer.join()
        errors.seek(0)
        found = process.returncode, output, errors.read()
    trial.need(found[0] == 0 and not found[2], "the end of the records", found)
    return lines_of(found)


def write_pieces(stream, data, draws):
    """Writes bytes in pieces, each by a call of its own, and ends the stream. That nobody reads them shows in what was answered."""
    with stream:
        while draws and data:
            try:
                data = data[os.write(stream.fileno(), data[: draws.choice([1, 2, 7, 60, 300, 5000, 70_000])]) :]
            except BrokenPipeError:
                break


# What it has to do.


def split(record):
    """The key and the text of a record, or its fault and None."""
    if len(record) > LONGEST:
        return "LongRecord", None
    try:
        text = record.decode()
    except UnicodeDecodeError:
        return "NotText", None
    key, tab, rest = text.partition("\t")
    return (key, rest) if tab else (None, text)


def words_of(text):
    """The words of a run of its own that is asked what a text asks, or None where they aren't for `answer`. A byte of value 0, which no word of a run
    has, is as any other that no reference has."""
    before, dashes, reference = text.replace("\0", "\1").partition(" -- ")
    command, *words = before.split(" ")
    names = [word.split("=")[0] for word in words]
    is_text = "--format=text" in words or ("--format", "text") in zip(words, words[1:])
    if command not in (*ON_MAP, "show") or is_text or any(name in OF_FILES for name in names):
        return None
    added = (TOWN if command in ON_MAP else []) + ([] if "--format" in names else ["--format", "json"])
    return [command, *added, *words, *(["--", reference] if dashes else [])]


def outcome(trial, text):
    """What a run of its own says to a text: the answer and the fault, each as JSON; or None where the fault is of the words."""
    words = words_of(text)
    if words is None:
        return None
    status, output, errors = found = trial.run([word.encode() for word in words])
    if status == 1 and not output and re.fullmatch(rb"olr: [^\n]+\n", errors):
        return b"null", json.dumps(errors[5:-1].decode()).encode()
    if status == 0 and re.fullmatch(rb"{.*}\n", output):
        return MARK.sub(b'"', output[:-1]), b"null"
    if (status == 2 and not output) or (status == 0 and output):
        return None
    raise GivenUp(f"a run of its own: {flaw_of(repr(text), found)}")


def is_line(line, number, key, said):
    """Whether a line has this number, key, answer and fault. Without these two the fault is of the words."""
    end = b',"key":%b,"record":%d}\n' % (json.dumps(key, ensure_ascii=False).encode(), number)
    if said is not None:
        return line == b'{"answer":%b,"fault":%b' % said + end
    if not (line.startswith(b'{"answer":null,"fault":"Words ') and line.endswith(end)):
        return False
    fault = json.loads(line)["fault"]
    return len(fault) > len("Words ") and "\n" not in fault


def kind_of(text, line):
    """What a line is counted as: the command of its answer, with `@` where that begins behind a cursor with a mark, or its fault."""
    fault = json.loads(line)["fault"]
    if fault is not None:
        return fault.split()[0]
    return text.split(" ")[0] + ("@" if re.search(r"--after[= ][0-9.:]+@", text) else "")


# The cases.


def mixed(trial, seed, count):
    """Drawn records, each beside a run of its own; and once more in another order, written in pieces."""
    draws, texts = random.Random(seed), references()
    drawn = Records(draws, texts, cursors(trial, texts))
    given = with_twins(draws, b"\n".join(drawn.record() for _ in range(count)).split(b"\n"), texts)
    lines = iter(answered(trial, b"\n".join(given)))
    first, kinds = {}, collections.Counter()
    for number, record in enumerate(given, 1):
        record = record[:-1] if record.endswith(b"\r") else record
        if record:
            line, (key, text) = next(lines, b""), split(record)
            said = outcome(trial, text) if text is not None else (b"null", b'"%b"' % key.encode())
            about = f"the line of record {number}, {record[:300]!r}, of which a run of its own says {said}"
            trial.need(is_line(line, number, None if text is None else key, said), about, (None, line, b""))
            first[record] = NUMBER.sub(b"", line)
            kinds[kind_of(text, line)] += 1
    trial.expect(next(lines, None) is None, "a line behind those of all records", (None, b"", b""))
    in_another_order(trial, draws, given, first)
    trial.summary = f"{sum(kinds.values())} records: " + ", ".join(f"{kind} {number}" for kind, number in kinds.most_common())
    for kind in ("show", *OF_BATCH, "match@", "Words", "BadCursor", "CursorOfOther", "CursorNotHere"):
        trial.expect(kinds[kind], f"no line is a {kind}", (None, b"", b""))


def with_twins(draws, records, texts):
    """Records, of which one in three has the words of the one before it, at times but for a byte, with a reference of its own."""
    found = []
    for record in records:
        words, dashes, _ = (found[-1] if found else b"").partition(b" -- ")
        if dashes and draws.randrange(3) == 0:
            left_out = draws.randrange(5 * len(words) + 1)
            record = words[:left_out] + words[left_out + 1 :] + dashes + draws.choice(texts).encode()
        found.append(record)
    return found


def in_another_order(trial, draws, given, first):
    """Gives records in another order, in pieces, and looks whether each has the line that it had first but for its number."""
    given = draws.sample(given, len(given))
    lines = iter(answered(trial, b"\n".join([*given, b""]), draws))
    for number, record in enumerate(given, 1):
        record = record[:-1] if record.endswith(b"\r") else record
        if record:
            line = next(lines, b"")
            same = line == first[record] + b',"record":%d}\n' % number
            trial.need(same, f"the line of {record[:300]!r} as record {number} in pieces, at first {shown(first[record])}", (None, line, b""))


def as_batch(trial, seed, what, count):
    """Texts for `batch`, each beside the same question to `answer`."""
    draws = random.Random(f"{seed} {what}")
    drawn = Records(draws, references(), {})
    for _ in range(1 + count // 100):
        options = draws.choice(TOLERANCES)
        for _ in range(draws.choice([0, 1, 2, 3])):
            options = [*options, *drawn.option([what, *options])]
        options = [*options, *drawn.flags(what, 0.3)]
        records = [(draws.choice(KEYS) or b"\t", drawn.reference().encode()) for _ in range(TEXTS_OF_A_BATCH)]
        (trial.folder / GIVEN).write_bytes(b"\n".join(key + text for key, text in records))
        found = trial.run([word.encode() for word in ("batch", what, *TOWN, *options, "--input", GIVEN)])
        question = " ".join([what, *options, "-- "]).encode()
        lines = answered(trial, b"\n".join(key + question + text for key, text in records))
        trial.need(len(lines) == len(records), f"{len(lines)} lines for {len(records)} records", found)
        of_batch = lines_of(found)
        for number, ((key, text), line) in enumerate(zip(records, lines), 1):
            if found[0] == 0:
                same = of_batch[number - 1 : number] == [line]
            else:
                said = outcome(trial, question.decode() + text.decode())
                same = is_line(line, number, key[:-1].decode(), said)
            trial.expect(same, f"{key + text!r} to `batch` with {options}, of which `answer` says {shown(line)}", found)


def make_cases(_, records, seed):
    """The cases."""
    return [(mixed, seed, records), *((as_batch, seed, what, records) for what in OF_BATCH)]


if __name__ == "__main__":
    main(__doc__, "olr", in_own_folder, make_cases, records=400, seed=1)
