"""The page of `olr-tools serve` for all: contrast, light and dark; the focus, which is seen; keys that can be turned off; and what a screen reader is told."""

import pytest
from collections.abc import Iterator
from typing import Any

from page_of_server import AS_PROGRAM, MESSAGES, ROADWORKS, UNMATCHED, Page, also_of_a_file

LUMINANCE = """
const parsed = (text) => text.match(/[0-9.]+/g).map(Number);
const over = ([r, g, b, a = 1], below) => [r, g, b].map((part, at) => part * a + below[at] * (1 - a));
const luminance = (colour) => {
  const [r, g, b] = colour.map((part) => (part / 255 <= 0.04045 ? part / 255 / 12.92 : ((part / 255 + 0.055) / 1.055) ** 2.4));
  return 0.2126 * r + 0.7152 * g + 0.0722 * b;
};
const contrast = (one, other) => {
  const [less, more] = [luminance(one), luminance(other)].sort((a, b) => a - b);
  return (more + 0.05) / (less + 0.05);
};
const groundOf = (element) => {
  if (!element) return [255, 255, 255];
  const colour = parsed(getComputedStyle(element).backgroundColor);
  return colour[3] === 0 ? groundOf(element.parentElement) : over(colour, colour.length > 3 && colour[3] < 1 ? groundOf(element.parentElement) : [0, 0, 0]);
};
"""
"""Contrasts by the WCAG's formula, of the colours that are shown."""
TEXTS = (
    """(() => {"""
    + LUMINANCE
    + """
  const found = [];
  for (const element of document.querySelectorAll('body *')) {
    const hasText = [...element.childNodes].some((node) => node.nodeType === 3 && node.textContent.trim());
    if (!hasText || element.closest('svg, script, .unseen') || !element.checkVisibility() || element.matches('.star, .arrow *')) continue;
    const ground = groundOf(element);
    found.push([contrast(over(parsed(getComputedStyle(element).color), ground), ground), `${element.tagName} ${element.className} ${element.textContent.slice(0, 30)}`]);
  }
  return found;
})()"""
)
MARKS = (
    """(() => {"""
    + LUMINANCE
    + """
  const ground = groundOf(document.querySelector('#map'));
  const stroke = (selector, below) => {
    const style = getComputedStyle(document.querySelector(selector));
    return over([...parsed(style.stroke).slice(0, 3), Number(style.strokeOpacity)], below);
  };
  const outer = stroke('#samples .of-outer', ground);
  const [casing, inner, route] = ['casing', 'inner', 'route'].map((name) => stroke(`#samples .of-${name}`, ground));
  const field = (selector, name) => contrast(parsed(getComputedStyle(document.querySelector(selector))[name]).slice(0, 3), groundOf(document.querySelector(selector).parentElement));
  return {
    outer: contrast(outer, ground),
    casing: contrast(casing, outer),
    inner: contrast(inner, casing),
    route: contrast(route, ground),
    'route on outer': contrast(route, outer),
    'route on inner': contrast(route, inner),
    ray: contrast(stroke('.ray', ground), ground),
    leg: contrast(stroke('.leg', ground), ground),
    other: contrast(stroke('.of-other-of-test', ground), ground),
    pin: contrast(parsed(getComputedStyle(document.querySelector('.pin b')).backgroundColor).slice(0, 3), ground),
    'large roads': contrast([0x6f, 0x6f, 0x6f], ground),
    'small roads': contrast([0x8a, 0x8a, 0x8a], ground),
    field: field('#ref', 'borderTopColor'),
    button: field('#options-button', 'borderTopColor'),
    chosen: field('.entry.chosen', 'borderTopColor'),
  };
})()"""
)


@pytest.fixture(params=["light", "dark"])
def scheme(request: pytest.FixtureRequest, page: Page) -> Iterator[str]:
    """What the system has chosen."""
    features = [{"name": "prefers-color-scheme", "value": request.param}]
    page.browser.call("Emulation.setEmulatedMedia", features=features)
    yield str(request.param)
    page.browser.call("Emulation.setEmulatedMedia", features=[])


@also_of_a_file
def test_contrasts(page: Page, scheme: str) -> None:
    """Of all texts with what is behind them, and of lines and marks: of a place, a list, options, and an error."""
    style = "getComputedStyle(document.documentElement).colorScheme"
    assert page.value(style) == scheme
    page.open(AS_PROGRAM)
    page.read(f"{MESSAGES}m6\t{UNMATCHED}\n")
    page.value(
        "for (const id of ['options', 'list-form']) document.getElementById(id).hidden = false"
    )
    page.browser.press("ArrowDown")
    page.browser.press("ArrowDown")
    page.wait("document.querySelector('#row').textContent.includes('m3')")
    page.settle()
    places = page.value(TEXTS)
    page.browser.press("ArrowDown")
    page.wait("document.querySelector('#row').textContent.includes('m4')")
    page.settle()
    nothing = page.value(TEXTS)
    page.browser.press("ArrowDown")
    page.wait("document.body.dataset.state === 'failed'")
    failed = page.value(TEXTS)
    page.open()
    page.browser.click("#close")
    empty = page.value(TEXTS)
    assert min(len(places), len(nothing), len(failed)) > 90 and len(empty) > 10
    assert [one for one in places + nothing + failed + empty if one[0] < 4.5] == []
    assert any(name.startswith("TD is-refused") for _, name in places)
    page.open(f"?ref={ROADWORKS}")
    sample = "document.querySelector('#samples svg').insertAdjacentHTML('beforeend', '<path class=\"of-other of-other-of-test\"/>')"
    page.value(sample)
    marks = page.value(MARKS)
    assert {name: value for name, value in marks.items() if value < 3} == {}
    assert page.is_quiet("status of 422")


def test_lines_have_the_colours_of_the_legend(page: Page, scheme: str) -> None:
    page.ask(ROADWORKS)
    for name in ("outer", "casing", "inner", "route"):
        strokes = page.value(
            f"['#map .{name}', '#samples .of-{name}'].map(it => getComputedStyle(document.querySelector(it)).stroke)"
        )
        assert strokes[0] == strokes[1]
    # On paper all is light.
    page.browser.call(
        "Emulation.setEmulatedMedia",
        media="print",
        features=[{"name": "prefers-color-scheme", "value": scheme}],
    )
    try:
        ground = page.value("getComputedStyle(document.querySelector('#map')).backgroundColor")
        assert ground == "rgb(244, 243, 239)"
    finally:
        page.browser.call("Emulation.setEmulatedMedia", media="")
    assert page.is_quiet()


SEEN = (
    """(() => {"""
    + LUMINANCE
    + """
  const element = document.activeElement;
  const shown = element.matches('.entry input') ? element.closest('.entry') : element;
  const name = element.id || element.getAttribute('aria-label') || element.title || element.textContent || element.className;
  const style = element.matches('#map') ? getComputedStyle(element, '::after') : getComputedStyle(shown);
  const kind = element.matches('#map') ? 'border' : 'outline';
  const isSeen = style[`${kind}Style`] === 'solid' || style[`${kind}TopStyle`] === 'solid';
  const width = parseFloat(style[`${kind}Width`] || style[`${kind}TopWidth`]);
  const colour = parsed(style[`${kind}Color`] || style[`${kind}TopColor`]).slice(0, 3);
  return [name, isSeen && width >= 2 ? contrast(colour, groundOf(element.matches('#map') ? element : shown.parentElement)) : 0];
})()"""
)


@also_of_a_file
def test_the_focus_is_seen(page: Page, scheme: str) -> None:
    """Of all that the tabulator reaches, also after a click on the map, where Leaflet takes the outline away."""
    page.read(MESSAGES)
    page.value(
        "for (const id of ['options', 'list-form']) document.getElementById(id).hidden = false"
    )
    page.browser.click("#map")
    page.value("document.querySelector('#ref').focus()")
    seen = []
    for _ in range(60):
        page.browser.press("Tab")
        seen.append(page.value(SEEN))
        if page.value("document.activeElement === document.body"):
            break
    names = " ".join(name for name, _ in seen)
    for name in (
        "option-radius",
        "list-file",
        "map",
        "Zoom in",
        "Zoom out",
        "match",
        "toggle-keys",
        "save-csv",
        "record",
        "m1",
    ):
        assert name in names
    assert [one for one in seen[: len(seen) - 1] if one[1] < 3] == []
    assert page.is_quiet("status of 422")


@also_of_a_file
def test_letters_that_are_turned_off(page: Page) -> None:
    """They don't act then, on this page and on the next one, but arrows do; nor do they while a field has the focus."""
    page.open(AS_PROGRAM)
    page.ask(ROADWORKS)
    chosen = "document.querySelector('.entry.chosen input')?.value"
    candidates = "document.querySelector('#toggle-candidates').checked"
    for field in ("#ref", "#option-radius", "#option-profile", "#list-text"):
        page.value(
            "for (const id of ['options', 'list-form']) document.getElementById(id).hidden = false"
        )
        page.value(f"document.querySelector('{field}').focus()")
        page.browser.press("c")
        page.browser.press("2")
        assert page.value(f"[{chosen}, {candidates}]") == ["0", True]
    page.open(f"{AS_PROGRAM}&ref={ROADWORKS}")
    page.value("document.activeElement.blur()")
    page.browser.press("2")
    page.browser.press("c")
    assert page.value(f"[{chosen}, {candidates}]") == ["1", False]
    page.browser.click("#toggle-keys")
    page.open(f"{AS_PROGRAM}&ref={ROADWORKS}")
    page.value("document.activeElement.blur()")
    page.browser.press("2")
    page.browser.press("c")
    assert page.value(f"[{chosen}, {candidates}]") == ["0", True]
    page.browser.press("ArrowDown")
    assert page.value(chosen) == "1"
    assert page.value("document.querySelector('#toggle-keys').checked") is False
    page.browser.click("#toggle-keys")
    page.value("document.activeElement.blur()")
    page.browser.press("1")
    assert page.value(chosen) == "0"
    assert page.value("localStorage.getItem('olr keys')") == "on"
    assert page.is_quiet()


CONTROLS = {
    "button",
    "textbox",
    "searchbox",
    "combobox",
    "checkbox",
    "radio",
    "link",
    "spinbutton",
    "application",
    "grid",
    "progressbar",
    "columnheader",
    "form",
    "search",
    "region",
}


def tree(page: Page) -> list[tuple[str, str, dict[str, Any]]]:
    """What a screen reader is given: role, name and properties of each node that isn't passed over."""
    nodes = page.browser.call("Accessibility.getFullAXTree")["nodes"]
    return [
        (
            node["role"]["value"],
            node.get("name", {}).get("value", "").strip(),
            {one["name"]: one["value"].get("value") for one in node.get("properties", [])},
        )
        for node in nodes
        if not node["ignored"]
    ]


@also_of_a_file
def test_what_a_screen_reader_is_given(page: Page) -> None:
    """Each control has a name, the table its headings and how many rows it has, and one polite region tells what changes."""
    page.browser.call("Accessibility.enable")
    page.open(AS_PROGRAM)
    page.read("".join(f"k{number}\t{ROADWORKS}\n" for number in range(300)))
    page.value(
        "for (const id of ['options', 'list-form']) document.getElementById(id).hidden = false"
    )
    page.browser.press("ArrowDown")
    page.settle()
    found = tree(page)
    roles = {role for role, _, _ in found}
    assert {
        "button",
        "textbox",
        "searchbox",
        "combobox",
        "checkbox",
        "radio",
        "link",
        "spinbutton",
        "grid",
        "application",
    } <= roles
    assert [(role, name) for role, name, _ in found if role in CONTROLS and not name] == []
    headings = [name for role, name, _ in found if role == "columnheader"]
    assert headings[:4] == ["record", "key", "verdict", "probability"] and len(headings) == 10
    assert page.value("document.querySelector('#rows table').ariaRowCount") == "301"
    assert ("grid", "References") in [(role, name) for role, name, _ in found]
    live = [(role, more["live"]) for role, _, more in found if "live" in more]
    assert ("status", "polite") in live and {kind for _, kind in live} == {"polite"}
    regions = "document.querySelectorAll('[role=status], [role=alert], [role=log], [aria-live]')"
    assert page.value(f"{regions}.length") == 1
    page.browser.call("Accessibility.disable")
    assert page.is_quiet()


def test_what_is_told(page: Page) -> None:
    """A verdict, a fault, what becomes of a list, and how many rows are found: one after the other."""
    page.value(
        "window.told = []; new MutationObserver(changes => changes.forEach(change => change.addedNodes.forEach(node => told.push(node.textContent)))).observe(document.querySelector('[role=status]'), {childList: true})"
    )

    def told() -> Any:
        return page.value("told.splice(0)")

    page.ask(UNMATCHED)
    assert told() == [page.text("#verdict-text")]
    page.ask("CwVG")
    assert any("BadLength 3" in text for text in told())
    page.read(MESSAGES)
    texts = told()
    assert texts[0].startswith("0 of 5 answered") and any(
        text.startswith("5 of 5 answered") for text in texts
    )
    assert len(texts) < 6
    page.fill("#rows input", "m2")
    assert told() == ["1 of 5 rows"]
    drop = "document.querySelector('#map').dispatchEvent(new DragEvent('drop', {bubbles: true, cancelable: true, dataTransfer: (() => { const data = new DataTransfer(); data.items.add(new File(['id,code\\nx,y\\n'], 'a.csv')); return data; })()}))"
    page.value(drop)
    page.wait("document.body.dataset.list === 'failed'")
    assert any("has no column ref" in text for text in told())
    assert page.count("[role=status] p") <= 3
    assert page.is_quiet("status of 422")
