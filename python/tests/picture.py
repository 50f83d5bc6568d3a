"""Draws the README's picture, docs/page.png, again: the page that its command `page` makes, with the example's messages, in headless Chromium.

Run it by `/usr/bin/python3 python/tests/picture.py`. The program is the one of `./olr-tools`.
"""

import json
import shlex
import subprocess
import tempfile
from pathlib import Path

from browser import Browser

TOP = Path(__file__).resolve().parents[2]
PICTURE = TOP / "docs/page.png"
SIZE = (1060, 720)
"""The width and the height of the picture in pixels."""
LIST = """
document.querySelector('#list-text').value = %s;
document.querySelector('#list-form').requestSubmit();
new Promise((done) => {
  const look = () => {
    const isDone = document.querySelector('#list').dataset.state === 'done' && document.body.dataset.state === 'ready';
    if (!isDone) return setTimeout(look, 20);
    document.activeElement.blur();
    return done();
  };
  look();
});
"""
"""Has a list read and answered, and waits for the picture of its first reference."""


def page_command() -> list[str]:
    """The words of the README's command `page`."""
    page = (TOP / "README.md").read_text(encoding="utf-8")
    command = next(line for line in page.splitlines() if line.startswith("$ ./olr-tools page "))
    return shlex.split(command.removeprefix("$ "))


def draw(picture: Path) -> None:
    """Writes the picture as a PNG."""
    with tempfile.TemporaryDirectory(prefix="picture.") as folder, Browser() as browser:
        for name in ("olr-tools", "examples"):
            Path(folder, name).symlink_to(TOP / name)
        command = page_command()
        subprocess.run(command, cwd=folder, check=True, stdout=subprocess.DEVNULL)
        browser.open(Path(folder, command[-1]), *SIZE)
        messages = (TOP / "examples/messages.tsv").read_text(encoding="utf-8")
        browser.value(LIST % json.dumps(messages))
        browser.screenshot(picture)


if __name__ == "__main__":
    draw(PICTURE)
