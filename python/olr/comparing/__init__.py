"""`olr-tools compare`: what changes for the references of a file with another map.

| module | subject |
|---|---|
| `places` | the likeliest place of a reference as geometry, and how those of two maps differ |
| `changes` | what the change of a reference is, and whether its place is more certain |
| `asking` | messages that are asked on both maps, a chunk at a time |
| `columns`, `rows` | the columns of the table of changes; its rows with geometries |
| `summary` | how many references change in which way |
"""
