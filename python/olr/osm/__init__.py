"""Maps from OpenStreetMap files.

| module | subject |
|---|---|
| `tags` | what the tags of a way mean: a road or not, its class, form and directions; `tags.toml` is the table |
| `format` | of what format a file is, by its first bytes |
| `versions` | whether a file has the objects of one time |
| `reading` | the roads and turn restrictions of a file |
| `restrictions` | bans on turns from turn restrictions |
| `importing` | a map from a file |
"""
