"""What `olr-tools serve` logs: lines with a time, and of one cause so many a minute. By a clock that the tests set."""

import logging
import pytest
import re
from io import StringIO
from typing import Any

from fake_pool import FakeClock
from olr.serving.logs import MOST_CAUSES, MOST_LINES, SECONDS, Lines

TIME = r"\d{4}-\d\d-\d\dT\d\d:\d\d:\d\d\.\d{3}[+-]\d\d:\d\d olr-tools: "


class Log:
    """A log without a server."""

    def __init__(self) -> None:
        self.clock, self.stream = FakeClock(), StringIO()
        self.lines = Lines(self.stream, self.clock)
        self._log = logging.Logger("test")
        self._log.addHandler(self.lines)

    def say(self, text: str, *values: object, **about: Any) -> None:
        """Logs a line."""
        self._log.warning(text, *values, extra=about)

    def said(self) -> list[str]:
        """The lines that were written, without their times."""
        return [re.sub("^" + TIME, "", line) for line in self.stream.getvalue().splitlines()]


@pytest.fixture
def log() -> Log:
    """An empty log."""
    return Log()


def test_a_line(log: Log) -> None:
    """It has the time, and is one, whatever is in it."""
    log.say("it %s", "failed\nolr-tools: badly\r\n")
    assert re.fullmatch(TIME + "it failed olr-tools: badly\n", log.stream.getvalue())


def test_the_same_cause(log: Log) -> None:
    """So many lines are written in a minute, and then how many there were besides, with the last one; others are written all the same."""
    for number in range(MOST_LINES + 1000):
        log.say("%d failed", number)
    log.say("it failed")
    log.say("%d failed", 7, cause="another one")
    assert log.said()[MOST_LINES:] == ["it failed", "7 failed"]
    log.clock.now += SECONDS - 1
    log.lines.look()
    assert len(log.said()) == MOST_LINES + 2
    log.clock.now += 1
    log.lines.look()
    assert log.said()[MOST_LINES + 2 :] == ["1,000 more lines like this one: 1029 failed"]
    log.say("%d failed", 8)
    assert log.said()[-1] == "8 failed"


def test_a_cause_of_which_one_line_says_all(log: Log) -> None:
    for _ in range(3):
        log.say("it failed", most=1)
    log.lines.look(is_over=True)
    assert log.said() == ["it failed", "2 more lines like this one: it failed"]


def test_lines_that_were_written_all(log: Log) -> None:
    """Nothing is said of them."""
    for _ in range(MOST_LINES):
        log.say("it failed")
    log.lines.look(is_over=True)
    assert len(log.said()) == MOST_LINES


def test_many_causes(log: Log) -> None:
    """Above so many all others are one."""
    for number in range(MOST_CAUSES + 500):
        log.say("it failed", cause=number)
    assert len(log.said()) == MOST_CAUSES + MOST_LINES
    log.lines.look(is_over=True)
    assert log.said()[-1] == "470 more lines like this one: it failed"
