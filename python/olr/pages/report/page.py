"""The page of a report."""

from collections import Counter
from collections.abc import Mapping, Sequence
from datetime import datetime, timezone
from typing import Any, NamedTuple

from olr.pages.html import Template, html_of, unfilled
from olr.pages.report.asking import Counted
from olr.pages.report.rows import Rows
from olr.pages.report.sentences import left_out, sections, summary
from olr.pages.view.page import TEMPLATE as VIEW
from olr.version import VERSION

TEMPLATE = Template("olr.pages.report", ("bars", "map", "scenes", "table"))


class About(NamedTuple):
    """What a report is of."""

    messages: str
    """The file's name, without its folder; and so that of the map."""
    map: str
    numbers: str
    """The tolerances and the numbers of the question."""
    first: Sequence[str]
    """What the summary says first, as sentences."""
    probabilities: str
    """What probabilities are of, or why there are none."""
    again: str = ""
    """The address at which all references of the table can be asked again, if there is one."""

    def title(self) -> str:
        """What the page is called."""
        return f"Report: {self.messages} on {self.map}"


def page_of(
    about: About,
    counted: Counted,
    rows: Rows,
    tiles: str | None = None,
    kept: Sequence[str] = (),
) -> str:
    """A page of HTML, whose rows have a cell for each name of what is kept. Raises `ToolError` as `olr.pages.html.html_of`."""
    shown = Counter(row["verdict"] for row in rows.rows)
    data: dict[str, Any] = {
        "title": f"{about.messages} on {about.map}",
        "summary": summary(counted, about.first),
        "facts": _facts(about),
        "sections": [section.content() for section in sections(counted, about.probabilities)],
        "again": about.again,
        "left_out": left_out(counted.places.verdicts, shown),
        "kept": kept,
        "rows": rows.rows,
        "scenes": rows.scenes,
        "shapes": rows.shapes,
        "lines": rows.lines,
        "cut": rows.cut,
        "view": unfilled(VIEW),
    }
    return html_of(TEMPLATE, about.title(), data, tiles)


def _facts(about: About) -> Mapping[str, str]:
    """What the top of the page says."""
    now = datetime.now(timezone.utc)
    return {
        "messages": about.messages,
        "map": about.map,
        "asked with": about.numbers,
        "made": f"{now:%Y-%m-%d %H:%M} UTC, by olr-tools {VERSION}",
    }
