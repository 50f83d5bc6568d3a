"""The page that answers by itself: one file with serve's page, the program as a WebAssembly module, and a map, or a part of one.

| file | subject |
|---|---|
| `making.py`, `module.py` | a page of a map; where the module is |
| `cutting.py`, `sources.py` | the map that is carried: a folder's, a store's, or what reaches into a box; where its lines came from |
| `page.py`, `tables.py` | the file, what is packed into it, and what its scripts have of Python's tables |
| `making.py` | the page of the map in a folder |
| `live.py`, `part.py` | pages that were made for some references, and what they carry of a map |
| `opening.js` | in the page: it opens with what it was made for |
| `choosing.js` | in a file with two pages, a report and the one that answers: which of them it is |
| `asking.js` | in the page: what it asks of addresses is answered by a worker |
| `licences.js` | in the page: the licences of what it carries |
| `worker.js`, `packing.js`, `questions.js` | the worker: the start, addresses, and the query of an address as a question |
| `program.js`, `part.js` | the program on the map, and on a part of one: of other references it answers nothing |

What follows is the worker's too: scripts that make of the program's answers what the server makes of them in Python. They are classic
scripts without a document, one behind the other. Names follow those of Python.

| file | as in Python |
|---|---|
| `exact_json.js`, `numbers.js`, `formats.js` | JSON with long ids, sums and rounding, numbers as texts |
| `faults.js`, `asked_with.js`, `pieces.js` | `olr.model` |
| `sources.js` | `olr.model.sources` |
| `rows.js` | `olr.serving`: rows of a list |
| `scene.js`, `sentences.js`, `surroundings.js`, `notes.js` | `olr.pages.view` |
| `lists.js`, `list_*.js`, `openlr_*.js` | `olr.messages`: lists of references in all formats |
| `features.js` | `olr.matching`: GeoJSON with the columns of tables |
"""
