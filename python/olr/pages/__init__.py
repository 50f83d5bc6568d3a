"""What pages share: how one is put together, a table that sorts, and a map of many geometries.

| file | subject |
|---|---|
| `html.py` | a page in one file, which needs no network |
| `kept.py` | members of records that are kept, as cells |
| `picture.js` | `pictureOf`: a scene as a map and a panel; it draws one in place of the other |
| `picture.css` | its styles |
| `scenes.js` | `scenesOf`: scenes of many references, which share paths and lines |
| `table.js` | `sortedTable`: rows that are sorted, filtered and walked through by keys |
| `map.js` | `mapOfMany`: lines and points by kind, on a canvas of Leaflet |
| `bars.js` | `tableOfBars`: counts with bars |
| `base.css` | of all pages: colours, light and dark, and what has the focus |
| `shared.css` | styles of them, of tables with bars, and of what is printed |
| `licences` | where a release has the texts that each page has of what it carries |

A page is a package with `page.html`, `page.css` and `page.js`, named in the package data of `pyproject.toml`:

    html_of(Template("olr.pages.report", ("bars", "map", "scenes", "table")), "title", data)

Its `page.html` is a template of jinja2, with the values `policy`, `title`, `licences`, `leaflet_css`, `css`, `leaflet_js`, `data` and `js`, as
that of `olr.pages.view`. `css` is that of `base.css`, `shared.css` and the page, `js` that of the components and the page. The script finds the data by
`JSON.parse(document.getElementById("data").textContent)`, and calls what it needs:

    const map = mapOfMany({ place, legend, kinds, shapes, onChoose: (row) => table.choose(row) });
    const table = sortedTable({ place, caption, columns, rows, onShow: map.show, onChoose: (row) => map.choose(row) });

Put texts of others into the page by `textContent` alone: keys of messages may hold markup.
"""
