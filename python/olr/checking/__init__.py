"""Finding what is wrong with a map's files, and what a map should be looked at for.

| module | subject |
|---|---|
| `files` | the three files: their headers, their records, their sizes |
| `rules` | the rules for a node, a line and a ban |
| `faults`, `remedies` | faults by the names that `olr` gives them, and what to do about each |
| `tables`, `map_arrays` | what the files have, while they are read and afterwards |
| `network` | networks, strongly connected parts, traps, dead ends |
| `lengths` | the lengths of lines beside those of their shapes |
| `stores` | the same of a store |
| `sources` | whether the sources of a map are those of its lines |
| `report` | what is printed |
| `remarks` | what of it a job can fail for, by names |
"""
