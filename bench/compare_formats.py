#!/usr/bin/env python3
"""Compares what `match` prints as text with what it prints as JSON, field by field.

    bench/compare_formats.py --program crates/olr/out/olr
    bench/compare_formats.py --program crates/olr/out/olr -- match REF --nodes FILE --lines FILE

Without words it runs the cases of the conformance suite that ask for matchings, which takes Python 3.11. The JSON is
read by Python's own `json`. The last line is `N outputs agree, M differ`; the status is 1 if one differs.
"""

import argparse
import json
import pathlib
import re
import subprocess
import sys
import tempfile

SUITE = pathlib.Path(__file__).resolve().parent.parent / "crates" / "olr_conformance" / "data"


def pieces_of(words):
    """Pieces `ID@FROM-TO`, or none."""
    if words == ["none"]:
        return None
    return [[int(number) for number in re.fullmatch(r"(\d+)@(\d+)-(\d+)", word).groups()] for word in words]


def place_of(words):
    """A place `ID@AT`."""
    (word,) = words
    return [int(number) for number in re.fullmatch(r"(\d+)@(\d+)", word).groups()]


def add_row(page, row):
    """Adds what a row of text says to its page; True if the page ends with it."""
    name, *rest = row.split(" ")
    if name == "end":
        page["next"] = None
        return True
    if name == "more":
        (page["next"],) = rest
        return True
    if name == "matching":
        (cursor,) = rest
        page["matchings"].append({"cursor": cursor, "total": int(cursor.split(":")[0]), "points": [], "legs": []})
        return False
    matching = page["matchings"][-1]
    if name == "point":
        number, _, line, _, at, _, penalty = rest
        matching["points"].append({"at": int(at), "line": int(line), "penalty": int(penalty)})
        assert int(number) == len(matching["points"]), row
    elif name == "leg":
        number, _, length, _, penalty = rest
        matching["legs"].append({"length": int(length), "penalty": int(penalty)})
        assert int(number) == len(matching["legs"]), row
    elif name in ("route", "outer", "inner"):
        matching[name] = pieces_of(rest)
    elif name in ("earliest", "latest"):
        matching[name] = place_of(rest)
    else:
        raise ValueError(f"an unknown row: {row}")
    return False


def pages_of_text(text):
    """The pages of a text, as the objects that JSON gives."""
    pages = [{"matchings": []}]
    for row in text.splitlines():
        if add_row(pages[-1], row):
            pages.append({"matchings": []})
    last = pages.pop()
    assert not last["matchings"] and text.endswith("\n"), "the text ends within a page"
    return pages


def pages_of_json(text):
    """The pages of JSON, one a line, each with its members in the order of their names."""
    assert text.endswith("\n"), "the last line has no end"
    pages = [json.loads(line) for line in text.splitlines()]
    again = "".join(json.dumps(page, sort_keys=True, separators=(",", ":")) + "\n" for page in pages)
    assert again == text, "the JSON isn't compact, or its members aren't in order"
    return pages


def run(program, words, folder):
    done = subprocess.run([program, *words], cwd=folder, capture_output=True, text=True, timeout=600)
    return done.returncode, done.stdout, done.stderr


def without_format(words):
    """The same words without `--format` and what follows it."""
    kept = []
    skip = False
    for word in words:
        if skip or word == "--format":
            skip = not skip
        elif not word.startswith("--format="):
            kept.append(word)
    return kept


def compare(program, words, folder):
    """How many outputs agree and differ: 1 and 0, 0 and 1, or 0 and 0 if there is none, and then the same fault."""
    words = without_format(words)
    text = run(program, [*words, "--format", "text"], folder)
    as_json = run(program, [*words, "--format", "json"], folder)
    if text[0] != 0:
        return (0, 0) if text == as_json else (0, 1)
    same = as_json[0] == 0 and pages_of_text(text[1]) == pages_of_json(as_json[1])
    return (1, 0) if same else (0, 1)


def cases_of_suite():
    """The words and files of the cases that ask for matchings."""
    import tomllib

    for path in sorted(SUITE.glob("match*.toml")):
        with open(path, "rb") as file:
            suite = tomllib.load(file)
        for case in suite["case"]:
            words = case.get("words", suite.get("words", []))
            asks_for_help = case.get("status", 0) == 0 and "output" not in case
            if words[:1] == ["match"] and not asks_for_help:
                yield f"{path.name}: {case['name']}", words, {**suite.get("files", {}), **case.get("files", {})}


def compare_case(program, words, files):
    with tempfile.TemporaryDirectory() as folder:
        for name, text in files.items():
            (pathlib.Path(folder) / name).write_text(text, newline="")
        return compare(program, words, folder)


def main():
    parser = argparse.ArgumentParser(description=__doc__, formatter_class=argparse.RawDescriptionHelpFormatter)
    parser.add_argument("--program", required=True)
    parser.add_argument("words", nargs="*")
    given = parser.parse_args()
    program = str(pathlib.Path(given.program).resolve())
    agree = differ = 0
    if given.words:
        agree, differ = compare(program, given.words, ".")
    else:
        for name, words, files in cases_of_suite():
            same, other = compare_case(program, words, files)
            agree, differ = agree + same, differ + other
            if other:
                print(f"{name}: differs")
    print(f"{agree} outputs agree, {differ} differ")
    return 1 if differ else 0


if __name__ == "__main__":
    sys.exit(main())
