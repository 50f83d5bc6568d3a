"""The page of a reference for a notebook: `olr.view`."""

from html import escape
from pathlib import Path

from olr.asking.files import MapFiles
from olr.asking.program import PathLike
from olr.client.given_map import MapOrPath, opened
from olr.extras import needed_by
from olr.model.answers import AboutReference
from olr.model.asked_with import all_of_question, name_for_program
from olr.outputs import write_whole

with needed_by("olr.view", "geo"):
    from olr.confidence.choosing import chosen_for
    from olr.confidence.confidence import Confidence
    from olr.pages.html import require_html
    from olr.pages.view.page import html_of, title_of
    from olr.pages.view.scene import add_command, scene_of

HEIGHT = 640
"""Of the page in a notebook, in pixels."""


class View:
    """A page of HTML, which a notebook shows, and which needs no network: what `olr.view` gives.

    >>> import olr
    >>> page = olr.view("CwVF/yN2yRpnBAFUAAgbpwYBAf9kK0Fa", "examples")
    >>> page.title, page.page[:15]
    ('CwVF/yN2yRpnBAFUAAgbpwYBAf9kK0Fa: unique', '<!DOCTYPE html>')
    """

    def __init__(self, title: str, page: str) -> None:
        self.title, self.page = title, page

    def __repr__(self) -> str:
        return f"<View: {self.title}>"

    def _repr_html_(self) -> str:
        # A frame that may run its own scripts, and reach nothing of the notebook.
        style = f'style="width:100%;height:{HEIGHT}px;border:0"'
        return f'<iframe {style} sandbox="allow-scripts" srcdoc="{escape(self.page)}"></iframe>'

    def save(self, file: PathLike) -> None:
        """Writes the page to a file, whole or not at all, in place of one that is there. Raises `ToolError` if its name doesn't end with
        `.html`, or it can't be written.

        >>> import olr
        >>> olr.view("CwVF/yN2yRpnBAFUAAgbpwYBAf9kK0Fa", "examples").save("place.txt")
        Traceback (most recent call last):
        olr.errors.ToolError: place.txt has no suffix that is known: name a file .html
        """
        path = Path(file)
        require_html(path)
        write_whole(path, self.page.encode(), force=True)


def view(
    ref: str | AboutReference,
    map: MapOrPath,
    *,
    confidence: "Confidence | None" = None,
    tiles: str | None = None,
    **numbers: int,
) -> View:
    """The page of `olr-tools view`, for a notebook: a reference on the map, its points, their candidates, and the places and matchings
    that it fits, or why it doesn't.

    `ref` is the text of a reference, or an answer that knows its own. `map` is an `olr.Map`, or the path of a folder or store, which is
    asked as `olr.Map(path)`. The numbers are those of `Map.places`. Probabilities are by the `confidence`, or else by that of the map: the one
    that comes with the package is for the profile `feed`. The page loads nothing, but for the images of `tiles` if that is given: a URL with
    `{z}`, `{x}` and `{y}`.

    >>> import olr
    >>> page = olr.view("CwVF/yN2yRpnBAFUAAgbpwYBAf9kK0Fa", "examples")
    >>> page
    <View: CwVF/yN2yRpnBAFUAAgbpwYBAf9kK0Fa: unique>
    >>> page.save("place.html")

    Raises `Fault` if it is no reference, or a number is out of its range, `TypeError` for an answer that doesn't know its reference,
    `ToolError` where the `confidence` is for other tolerances or Leaflet isn't installed, and as `Map.answers`.
    """
    text = ref.ref if isinstance(ref, AboutReference) else ref
    if text is None:
        raise TypeError("this answer doesn't know its reference: give the text of it")
    with opened(map, confidence) as asked:
        chosen_for(asked, numbers, confidence is not None)
        scene = scene_of(text, asked, **numbers)
        all_numbers = {**asked.tolerances, **all_of_question("places", numbers)}
        add_command(scene, _name_of(asked.files), all_numbers)
    return View(title_of(scene), html_of(scene, tiles))


def _name_of(files: MapFiles) -> str | None:
    """The name of the folder whose map these files are; None if they are of no single one, or a store."""
    folder = files.nodes.parent
    is_whole = files.paths() == MapFiles.of_folder(folder).paths()
    return name_for_program(folder) if is_whole else None
