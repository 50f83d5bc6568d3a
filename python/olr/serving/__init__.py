"""A server that answers questions about references on a map, by HTTP: docs/SERVE.md.

| module | subject |
|---|---|
| `limits` | how much a request may take |
| `queries` | the query of a URL as a question |
| `problems` | why there is no answer, as a problem document |
| `edition` | one version of a map's files |
| `process` | a process `olr answer` that is asked without threads |
| `pool`, `waiting` | these processes, and who is answered next; what waits, by client |
| `runs` | runs that end by themselves: of the program, for its version, and of Python |
| `served` | what the addresses ask of a map |
| `folder_map`, `store_map` | the map of a folder, and that of a store |
| `wanted` | questions as what is made of their answers needs them |
| `features`, `scenes`, `rows` | what is asked for answers as GeoJSON, for what a page draws, and for lines about many references |
| `tasks`, `makers`, `rooms` | what the server asks of processes of its own, which make these; who asks them; how many work at once |
| `maker`, `ground` | such a process; what it has of a map |
| `feature_texts`, `scene_texts`, `row_texts` | what it makes |
| `files` | answers in files |
| `streaming`, `bodies` | `POST /batch/{command}` and `POST /rows`; their bodies, and how records are asked ahead |
| `posted` | `POST /match` and so on: questions as JSON |
| `lists`, `listing` | `POST /messages`: lists as the page shows them; the process that reads one |
| `schemas`, `openapi`, `pages` | what answers have in them, the addresses as an OpenAPI document, and the pages with the files that they load |
| `addresses`, `routing` | the addresses, and what each answers; which of them answers a request |
| `maps` | several maps in one server |
| `allowed`, `front` | who may ask, and what stands before the addresses |
| `accepting`, `compressing`, `tags` | what a client likes, answers as gzip, and answers that it has already |
| `peers`, `loads` | clients by their addresses, and how much of what is done at once one of them has |
| `meters`, `logs` | what is counted, and what is logged |
| `connections` | connections and their limits |
| `listening`, `server` | what it listens to, and the server |

`docs.html` is the template of the page that lists the addresses. The page for people is `assets/index.html`, with components of `olr.pages`:

| file | subject |
|---|---|
| `page.js` | the page: its state, its address, and what is asked |
| `address.js`, `asking.js` | a state as an address, and requests with what goes wrong |
| `options.js`, `list.js` | the fields of the numbers, and a list of references |
| `kept.js`, `saving.js` | what the tab keeps of a list, and what goes out of it |
"""
