"""References whose fields are numbers in physical units, as XML has them, and their binary form. No place of a map is encoded here.

| module | subject |
|---|---|
| `fields` | the fields of a reference, in degrees and metres |
| `numbers` | these numbers, exactly |
| `faults` | why there is no binary form, by name |
| `grid` | coordinates in the steps of the binary form |
| `writing` | the binary form, in base64 |
"""
