#!/usr/bin/env python3
"""Runs cases of the conformance suite under valgrind: no access out of bounds, no use of what was never set or is freed, and no leak.

    attacks/valgrind.py --program crates/olr/out/olr [--every 8] [--jobs 2]

takes one case of each file and one of each fault, and every eighth of all cases (Python 3.11, and valgrind on the path). What a process still holds at its end
is no leak. Each run also has to give the case's own status, output and fault line. The status is 0 if all is well.
"""

import argparse
import multiprocessing.dummy
import os
import pathlib
import subprocess
import sys
import tempfile
import tomllib

SUITE = pathlib.Path(__file__).resolve().parent.parent / "crates" / "olr_conformance" / "data"
FLAW = 99
CHECKS = ["--quiet", f"--error-exitcode={FLAW}", "--leak-check=full", "--errors-for-leak-kinds=definite,indirect,possible"]


def cases(every):
    """The name, words, files, input, status, output and fault line of the cases that are chosen."""
    count, faults = 0, set()
    for path in sorted(SUITE.glob("*.toml")):
        with open(path, "rb") as file:
            suite = tomllib.load(file)
        for index, case in enumerate(suite["case"]):
            count += 1
            words = case.get("words", suite.get("words", []))
            fault = " ".join(case.get("fault", "").split()[:2])
            is_new = fault != "" and fault not in faults
            if (index == 0 or is_new or count % every == 0) and words:
                faults.add(fault)
                files = {**suite.get("files", {}), **case.get("files", {})}
                how = case.get("status", 0), case.get("output"), case.get("fault")
                yield f"{path.name}: {case['name']}", words, files, case.get("input", ""), *how


def flaw_of(program, case):
    """What is wrong with a case under valgrind, or None."""
    name, words, files, given, status, output, fault = case
    with tempfile.TemporaryDirectory() as folder:
        for file, text in files.items():
            (pathlib.Path(folder) / file).parent.mkdir(exist_ok=True)
            (pathlib.Path(folder) / file).write_text(text, newline="")
        report = pathlib.Path(folder) / ".valgrind"
        command = ["valgrind", *CHECKS, f"--log-file={report}", program, *words]
        done = subprocess.run(command, cwd=folder, input=given.encode(), capture_output=True, timeout=600)
        reported = report.read_text(errors="replace")
    if done.returncode == FLAW or reported:
        return f"{name}: valgrind reports\n{reported}"
    if done.returncode != status:
        return f"{name}: status {done.returncode}"
    if output is not None and done.stdout != output.encode() or status and done.stdout:
        return f"{name}: another output"
    if status == 1 and done.stderr != f"{fault}\n".encode():
        return f"{name}: {done.stderr.decode()}"
    return None


def main():
    parser = argparse.ArgumentParser(description=__doc__, formatter_class=argparse.RawDescriptionHelpFormatter)
    parser.add_argument("--program", required=True)
    parser.add_argument("--every", type=int, default=8)
    parser.add_argument("--jobs", type=int, default=2)
    chosen = parser.parse_args()
    program = os.path.abspath(chosen.program)
    with multiprocessing.dummy.Pool(chosen.jobs) as pool:
        flaws = pool.map(lambda case: flaw_of(program, case), list(cases(chosen.every)))
    for flaw in filter(None, flaws):
        print(flaw)
    print(f"{len(flaws)} cases under valgrind, {sum(map(bool, flaws))} with a flaw")
    return 1 if any(flaws) else 0


if __name__ == "__main__":
    sys.exit(main())
