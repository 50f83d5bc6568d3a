"""What a page that answers by itself says where it can't: in a browser that doesn't start its program, or runs no scripts."""

import pytest
from pathlib import Path

from browser import Browser
from conftest import TOP
from olr.pages.alone.making import made_of
from olr.pages.alone.making import CONFIDENCE
from olr.pages.alone.module import MODULE
from olr.pages.alone.page import ABOUT_SERVER, OF_SERVER, Carried, html_of
from servers import wait_until

SEEN = "[...document.querySelectorAll('.problem')].filter((one) => one.checkVisibility()).map((one) => one.textContent.split(':')[0].trim())"
"""How each problem begins that is seen."""
WITHOUT_SCRIPTS = (
    "This page answers by its scripts, and they don't run here, as in the preview of a mail"
)


@pytest.fixture(scope="module")
def page(tmp_path_factory: pytest.TempPathFactory) -> Path:
    """That of the examples."""
    file = tmp_path_factory.mktemp("page") / "app.html"
    file.write_text(made_of(TOP / "examples", None, None).page)
    return file


def open_until(browser: Browser, file: Path, state: str) -> None:
    """Opens a page, and waits until its program is in a state."""
    browser.open(file)
    wait_until(lambda: bool(browser.value(f"document.body.dataset.program === '{state}'")))


def test_a_browser_that_cannot_run_the_program_is_told_so(
    browser: Browser, page: Path, tmp_path: Path
) -> None:
    open_until(browser, page, "ready")
    assert browser.value(SEEN) == []
    files = {name: (TOP / "examples" / name).read_bytes() for name in ("nodes.csv", "lines.csv")}
    unable = tmp_path / "app.html"
    unable.write_text(
        html_of(Carried("town", {"network": ""}, {**files, MODULE: b"?", CONFIDENCE: b"{}"}))
    )
    open_until(browser, unable, "failed")
    assert browser.value(SEEN) == ["The program in this page doesn't start in this browser"]


def test_where_no_scripts_run_it_says_so(browser: Browser, page: Path) -> None:
    browser.open(page)
    browser.call("Emulation.setScriptExecutionDisabled", value=True)
    try:
        browser.call("Page.reload")
        # The new document has no promises to wait for.
        wait_until(lambda: bool(browser.value(SEEN) == [WITHOUT_SCRIPTS]))
    finally:
        browser.call("Emulation.setScriptExecutionDisabled", value=False)


def test_it_speaks_of_no_server(page: Path) -> None:
    """Whatever is said otherwise than on the server's page is still there to be said otherwise."""
    served = TOP / "python/olr/serving/assets"
    of_server = "".join(file.read_text() for file in sorted(served.glob("*.*")))
    own = page.read_text()
    for old, new in {**OF_SERVER, **ABOUT_SERVER}.items():
        assert of_server.count(old) == 1 and old not in own and new in own
