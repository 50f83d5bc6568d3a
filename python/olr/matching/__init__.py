"""`olr-tools match`: from a file of messages to files of rows, with geometries.

| module | subject |
|---|---|
| `tables` | what a column is: what it holds, and how it is worked out |
| `columns` | the columns of each table |
| `kept_columns` | members of records that are kept, as columns behind these |
| `rows` | what columns are worked out of: answers and pieces as rows, some hundred at once |
| `chunks` | answers, and their rows |
| `reasons` | what `why` says as rows |
| `shapes` | lines and points of many rows at once, as other programs read them |
| `geopackage`, `texts` | rows into a GeoPackage; into CSV and GeoJSON |
| `writing` | files of rows, written whole or not at all |
| `lacking` | references that fit nowhere, and what would help how many of them |
| `geodataframe` | `olr.to_geodataframe` and `olr.to_pieces`: answers as tables |
| `locating` | `olr.locate`: a table of references, and where each of them is |
| `asking` | references that are asked one after the other, and their rows |
"""
