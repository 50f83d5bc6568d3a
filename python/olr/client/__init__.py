"""The program `olr` from Python: questions about references on a map, and their answers as objects.

| module | subject |
|---|---|
| `map_client`, `given_map` | `olr.Map`, and a map as it is given to a call: that, or a path |
| `answering` | how its questions are asked and their answers read |
| `source`, `store_source` | the map of files, or of a store, of which the parts are asked that references need |
| `written` | `olr.answers`: answers that were written to a file |
"""
