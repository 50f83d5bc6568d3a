"""`olr-tools view`: a page that shows a reference and what it fits, in one file that needs no network.

| module | subject |
|---|---|
| `scene` | all that is drawn, as data |
| `surroundings` | the lines of the map around it |
| `paths` | coordinates of answers as they are drawn |
| `sentences` | what is said about it |
| `notes` | other paths of its first entry |
| `showing` | `olr.view`: the page in a notebook |
| `page` | the page: `page.html`, `page.css`, `page.js` and the data, by `olr.pages` |
"""
