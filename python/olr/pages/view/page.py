"""The page of a scene."""


from olr.pages.html import Template
from olr.pages.html import html_of as html_of_template
from olr.pages.view.surroundings import Scene

TEMPLATE = Template("olr.pages.view", ("picture",))


def html_of(scene: Scene, tiles: str | None = None) -> str:
    """A page of HTML that shows a scene. It loads nothing, but for the images of `tiles` if that is given: a URL with `{z}`, `{x}`
    and `{y}`. Raises `ToolError` if Leaflet isn't installed, or the URL isn't one."""
    return html_of_template(TEMPLATE, title_of(scene), scene, tiles)


def title_of(scene: Scene) -> str:
    """What the page of a scene is called."""
    return f"{scene['reference']}: {scene['verdict']['word']}"
