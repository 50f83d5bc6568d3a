"""Runs tests and shows, by package, how much of the branches they go through: also in the processes that they start, such as servers.

    /usr/bin/python3 tests/measure.py [WORD OF PYTEST ..]

It needs Debian's python3-coverage. A process that is killed leaves no data; one that gets SIGTERM does.
"""

import json
import os
import subprocess
import sys
import tempfile
from collections import Counter
from pathlib import Path

PYTHON = Path(__file__).resolve().parents[1]
SETTINGS = """[run]
branch = true
parallel = true
sigterm = true
source_pkgs = olr
"""
AT_START = """import coverage
coverage.process_startup()
"""
"""What each process of Python runs before anything else."""
COUNTS = ("num_statements", "num_branches", "covered_lines", "covered_branches")


def coverage(folder: Path, *words: str) -> int:
    """Runs a command of coverage, which keeps what it measures in a folder. Answers its status."""
    settings = folder / "settings"
    environment = os.environ | {
        "COVERAGE_FILE": str(folder / "data"),
        "COVERAGE_PROCESS_START": str(settings),
        "PYTHONPATH": os.pathsep.join([str(folder), str(PYTHON)]),
    }
    command = [sys.executable, "-m", "coverage", words[0], f"--rcfile={settings}", *words[1:]]
    return subprocess.run(command, cwd=PYTHON, env=environment, check=False).returncode


def show(found: dict[str, dict[str, dict[str, int]]]) -> None:
    """Prints how much of each package was gone through, by coverage's JSON of its files."""
    packages: dict[str, Counter[str]] = {}
    for file, about in found.items():
        package = Path(file).relative_to("olr").parts[0].removesuffix(".py")
        counts = {name: about["summary"][name] for name in COUNTS}
        packages.setdefault(package, Counter()).update(counts)
    for package, sums in sorted(packages.items()):
        statements, branches, lines, gone = (sums[name] for name in COUNTS)
        share = 100 * (lines + gone) / max(1, statements + branches)
        print(f"{package:12} {share:5.1f} % of {statements:,} statements and {branches:,} branches")


def main() -> int:
    """Runs the tests that the words choose, and answers their status."""
    with tempfile.TemporaryDirectory(prefix="olr-measure.") as name:
        folder = Path(name)
        (folder / "settings").write_text(SETTINGS)
        (folder / "sitecustomize.py").write_text(AT_START)
        status = coverage(folder, "run", "-m", "pytest", "-q", *sys.argv[1:])
        coverage(folder, "combine", "-q")
        coverage(folder, "json", "-q", "-o", str(folder / "found"))
        show(json.loads((folder / "found").read_text())["files"])
    return status


if __name__ == "__main__":
    sys.exit(main())
