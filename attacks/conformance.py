#!/usr/bin/env python3
"""Gives a program the cases of crates/olr_conformance/data/, as processes with files: each case's status, output and fault line.

    attacks/conformance.py [--program PATH..]

It is a plain runner of the format that crates/olr_conformance/README.md describes, for programs that can't be proved and built here, such as the
released one without the toolchain. In the gate the proved program of that crate runs the same cases over memory. It needs Python 3.11.
"""

import pathlib
import tempfile
import tomllib

from trials import TOP, main

DATA = TOP / "crates/olr_conformance/data"
NOT_UNDERSTOOD = 2
WORDS = '"fault":"Words '


def make_cases(folder):
    """The cases of all files, those of a file together."""
    return [(name,) for name in (DATA / "suites.txt").read_text().split()]


def try_suite(trial, name):
    """Tries all cases of a file."""
    suite = tomllib.loads((DATA / name).read_text())
    for case in suite["case"]:
        with tempfile.TemporaryDirectory(dir=trial.folder) as own:
            try_case(trial, pathlib.Path(own), suite, case)
    trial.summary = f"{name}: {trial.passed} of {len(suite['case'])} cases passed"


def try_case(trial, folder, suite, case):
    """Tries a case in an empty folder."""
    texts = {**suite.get("files", {}), **case.get("files", {})}
    for path, text in texts.items():
        file = folder / path
        file.parent.mkdir(parents=True, exist_ok=True)
        file.write_bytes(text.encode())
    with tempfile.NamedTemporaryFile() as given:
        given.write(case.get("input", "").encode())
        given.flush()
        trial.given = given.name
        found = trial.run(case.get("words", suite.get("words", [])), cwd=folder)
    trial.expect(is_wanted(found, suite, case), f"{case['name']!r}", found)


def is_wanted(found, suite, case):
    """Whether a run gave what its case wants."""
    status, output, errors = found
    return status == case.get("status", 0) and is_output(output.decode(), suite, case) and is_fault(errors.decode(), case)


def is_output(output, suite, case):
    """Whether an output is that of a case: any where it has none and succeeds, and lines that go on where its file says so or a fault is `Words`."""
    if "output" not in case:
        return output == "" or case.get("status", 0) == 0
    wanted = case["output"]
    if suite.get("more_columns", False):
        return have_lines(has_columns, output, wanted)
    return have_lines(has_words, output, wanted) if WORDS in wanted else output == wanted


def have_lines(is_line, output, wanted):
    """Whether an output has as many lines as the wanted one, each of which is as it has to be."""
    lines = (output.splitlines(), wanted.splitlines())
    return len(lines[0]) == len(lines[1]) and all(map(is_line, *lines))


def has_columns(line, wanted):
    """Whether a line begins with the columns of the wanted one."""
    return f"{line} ".startswith(f"{wanted} ")


def has_words(line, wanted):
    """Whether a line is the wanted one, but for what a fault `Words` says."""
    before, words, behind = wanted.partition(WORDS)
    return line == wanted if not words else line.startswith(before + words) and line.endswith(behind)


def is_fault(errors, case):
    """Whether the standard error is that of a case. Most texts about words that aren't understood are the parser's, and not compared."""
    if "fault" not in case:
        return errors == "" or case.get("status", 0) == NOT_UNDERSTOOD
    return errors == f"{case['fault']}\n"


if __name__ == "__main__":
    main(__doc__, "olr", try_suite, make_cases)
