"""The page of `olr-tools compare`: the references that change with another map.

| module | subject |
|---|---|
| `page` | the page: `page.html`, `page.css`, `page.js` and the data, by `olr.pages` |
"""
