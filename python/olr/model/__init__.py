"""What the tools speak of: a map and its files, references, questions, and the program's answers. It asks nothing, and needs Python alone
but for `columns`.

| module | subject |
|---|---|
| `road_map` | what a map is: nodes, lines, bans, where each line came from, and the limits |
| `map_folder` | a map as files in a folder: written whole or not at all, and read again |
| `records`, `values` | the records of a map's files, as `olr` reads them, and what their fields spell |
| `columns` | the same of thousands of records at once, as columns of numbers |
| `sources` | where each line came from: the file `ids.csv`, and a store's table |
| `measure`, `box` | microdegrees, and lengths on the ellipsoid; a part of the earth |
| `reference` | what a reference says, without a run of the program |
| `questions`, `profiles` | what can be asked, with which numbers; tolerances that go together, by a name |
| `asked_with` | with which numbers is asked, as a text and as a command of the program |
| `answers`, `legs_and_lines` | the answers, with the names of the program's JSON |
| `display` | answers as plain dicts, in one line, and in a notebook |
| `pieces`, `late` | pieces of lines; sequences that are read when they are first looked at |
| `objects` | from JSON to these objects |
| `fault`, `fault_table` | why there is no answer |
"""
