"""References whose true path is known: drawn on a map, and changed as two maps differ. For trials of the program, and for tests.

| module | subject |
|---|---|
| `encoder` | a small encoder of references |
| `roads` | the roads of a map, with their directions |
| `graph` | bounded searches over the lines of a map |
| `likeness` | the classes and lengths that are wanted of paths: usual ones, or those of messages |
| `paths` | true paths, drawn, and references to them |
| `changing` | by how much references are off, and references changed so |
| `differing` | a map as another maker has it |
| `neighbourhood` | a part of a large map |
| `rightness` | whether a place is the right one |
"""
