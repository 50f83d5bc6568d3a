"""`olr-tools report --check`: a page on which somebody says of some messages whether their likeliest places are right. It saves the file that
`olr-tools calibrate --checked` reads.

| module | subject |
|---|---|
| `picking` | which messages are checked: a sample of all that can be |
| `page` | the page: `page.html`, `page.css`, `page.js` and the data, by `olr.pages` |

The rows and scenes of the messages are those of `olr.pages.report`.
"""
