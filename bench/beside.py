"""The program olr_tools, and a program of this folder that does the same, written plainly in C."""

import pathlib
import subprocess
import sys

HERE = pathlib.Path(__file__).resolve().parent


def programs(name, folder, level="-O2"):
    """The two programs by name, the plain one first. Builds NAME.c with `cc -O2`, or at another level, into the folder."""
    ours = HERE.parent / "crates" / "olr_tools" / "out" / "olr_tools"
    if not ours.exists():
        sys.exit("build crates/olr_tools first: cd crates/olr_tools && rt run -- rows")
    plain = pathlib.Path(folder) / name
    subprocess.run(["cc", level, "-o", str(plain), str(HERE / f"{name}.c")], check=True)
    return {"plain": plain, "olr_tools": ours}


def printed_lines(program, *words):
    """The lines that a run with these words prints."""
    command = [str(program), *map(str, words)]
    return subprocess.run(command, capture_output=True, text=True, check=True, timeout=600).stdout.splitlines()


def compare_sums(sums):
    """Prints whether all sums were the same. The exit status."""
    print("same sums" if len(sums) == 1 else f"sums differ: {sorted(sums)}")
    return 0 if len(sums) == 1 else 1
