"""Programs that are `olr`, but for some references at which they fail, each in its way."""

from collections.abc import Mapping
from pathlib import Path

from conftest import Program

FAILING = {
    "exits": "os._exit(3)",
    "ends": "os._exit(0)",
    "is killed": "os.kill(os.getpid(), 9)",
    "another number": "put(line[:line.rindex(b':')] + b':7777}\\n')",
    "another key": "key = b',\"key\":'; put(line[:line.index(key)] + key + b'\"x\"' + line[line.index(b',\"record\":'):])",
    "broken JSON": "put(line.replace(b',', b',,', 1))",
    "no text": 'put(line.replace(b\',"fault"\', b\',"\\xff":1,"fault"\', 1))',
    "half a line": "put(line[:-9]); os._exit(0)",
    "an empty line": "put(b'\\n')",
}
"""What a program may do at a record, in Python: each is the fault ProgramFailed."""
HANGING = {
    "hangs": "time.sleep(600)",
    "no line": "pass",
    "hangs within a line": "put(line[:20]); time.sleep(600)",
    "dribbles": "for _ in iter(lambda: put(b' '), 1): time.sleep(0.01)",
}
"""Likewise: each is the fault TimedOut."""
GOOD = {
    "says": "print('oh', file=sys.stderr, flush=True); put(line)",
    "two lines": "put(line + line)",
    "is slow": "time.sleep(0.2); put(line)",
}
"""Likewise: the record has its line all the same."""


def bad_program(file: Path, program: Program, ways: Mapping[str, str]) -> Path:
    """Writes a program that fails at some references, each in one of these ways. It writes a line to `FILE.log` at each start
    with records. Once `FILE.good` is there it is good at all records that follow, whenever it was started.
    """
    known = FAILING | HANGING | GOOD
    cases = "\n".join(f"    if way == {way!r}:\n        {known[way]}" for way in sorted(known))
    file.write_text(
        f"""#!/usr/bin/python3 -IS
import os, sys, time

PROGRAM, WAYS = {str(program.path)!r}, {dict(ways)!r}
command = [PROGRAM, *sys.argv[1:]]
if sys.argv[1] == "answer":
    with open({f"{file}.log"!r}, "a") as log:
        print(*sys.argv[1:], file=log)
if sys.argv[1] != "answer":
    os.execv(PROGRAM, command)
given, asked = os.pipe()
answered, said = os.pipe()
ends = [(os.POSIX_SPAWN_DUP2, given, 0), (os.POSIX_SPAWN_DUP2, said, 1)]
real = os.posix_spawn(PROGRAM, command, os.environ, file_actions=ends)
os.close(given)
os.close(said)
asked, answered = open(asked, "wb", 0), open(answered, "rb")

def put(data):
    sys.stdout.buffer.write(data)
    sys.stdout.buffer.flush()

for record in sys.stdin.buffer:
    asked.write(record)
    if not record.rstrip(b"\\r\\n"): continue
    line = answered.readline()
    way = WAYS.get(record.rstrip(b"\\r\\n").partition(b" -- ")[2].decode("latin-1"))
    if way is None or os.path.exists({f"{file}.good"!r}):
        put(line)
        continue
{cases}
asked.close()
sys.exit(os.waitstatus_to_exitcode(os.waitpid(real, 0)[1]))
"""
    )
    file.chmod(0o755)
    return file


def starts(file: Path) -> int:
    """How often the program was started."""
    return Path(f"{file}.log").read_text().count("\n")
