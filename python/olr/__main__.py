"""The command `olr-tools`. `setup` and the help work with Python alone."""

import signal
import sys
from functools import partial

from olr.streams import ended, open_missing

USAGE = """Usage: olr-tools COMMAND ..

The module click is missing, so only one command works:

    olr-tools setup    install what is missing on Debian, by apt-get

Elsewhere the extras of the wheel bring it, such as olr[maps], in a virtual environment."""


def main() -> None:
    """Runs the command line. Ends the process: status 0, 1 for a failure, 2 for words that weren't understood, 3 where a limit was
    passed that the words set."""
    open_missing()
    try:
        from olr.tools import run
    except ModuleNotFoundError as missing:
        sys.exit(ended(partial(_without_click, sys.argv[1:], missing)))
    # What is half written is deleted, and processes are ended, as by an interrupt.
    signal.signal(signal.SIGTERM, signal.default_int_handler)
    if signal.getsignal(signal.SIGHUP) == signal.SIG_DFL:
        # A terminal was closed: nohup has it ignored.
        signal.signal(signal.SIGHUP, signal.default_int_handler)
    status = run()
    for one in (signal.SIGINT, signal.SIGTERM):
        # All is done, and Python would say by a traceback what it was doing at its end.
        signal.signal(one, signal.SIG_DFL)
    sys.exit(status)


def _without_click(words: list[str], missing: ModuleNotFoundError) -> int:
    """What works without the module click. Answers the status."""
    if not words or {"--help", "-h"}.intersection(words):
        print(USAGE)
        return 0
    if words[0] == "--version":
        from olr.version import VERSION

        print(f"olr-tools, version {VERSION}")
        return 0
    if words[0] == "setup":
        from olr.setup import set_up

        return set_up(tests="--tests" in words[1:])
    from olr.extras import lacking

    raise lacking(words[0], missing)


if __name__ == "__main__":
    main()
