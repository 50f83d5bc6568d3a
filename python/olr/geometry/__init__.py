"""Maps and answers as geometries: arrays of coordinates, and what is measured on them.

| module | subject |
|---|---|
| `network` | `olr.Network`: a map as arrays, and the geometry of pieces of its lines |
| `store_network` | the same of a store, of which it reads what is asked for |
| `parts` | pieces of many matchings as arrays |
| `turns` | the turns from lines into others, by nodes and bans |
| `plane`, `stretches` | polylines in a plane with metres; what one has of another one and what it lacks, and how far they are apart |
| `agreement` | how far two places agree: what they cover of each other |
"""
