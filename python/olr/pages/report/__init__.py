"""`olr-tools report`: a page that says what is wrong with a feed of messages, or with a map.

| module | subject |
|---|---|
| `counting` | answers, counted one after the other: verdicts, faults, penalties, probabilities |
| `expectation` | what is said first: how many likeliest places are right, and how different the two maps are |
| `reasons` | why references fit nothing, counted |
| `sample` | the messages that the table of references has: some of each outcome |
| `rows` | those messages as rows, with geometries and scenes, and the lines of the map around them |
| `sentences` | what the page says of all of that, as sentences and tables |
| `page` | the page: `page.html`, `page.css`, `page.js` and the data, by `olr.pages` |
| `asking` | a file of messages, asked and counted |

All messages are counted, and none is kept but those of the table.
"""
