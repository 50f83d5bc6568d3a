"""What all imports have in common.

| module | subject |
|---|---|
| `roads` | roads, as polylines that share vertices, cut into the lines of a map |
| `antimeridian` | roads cut at longitude 180 |
| `u_turns` | bans on turning back |
| `packed` | files that are packed, by their first bytes |
| `writing` | bans on a map, and how a map is written |
"""
