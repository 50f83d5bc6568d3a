"""Maps of any size, and the part of one that a reference needs: docs/REGIONS.md says why that part is enough.

| module | subject |
|---|---|
| `plane` | the plane in which the program measures, and discs in it |
| `geopackage` | the tables and blobs of a GeoPackage |
| `index` | the index of its layer of lines |
| `blocks` | lines that are neighbours, in pieces that are read and checked at once |
| `records` | records of files, put from such pieces into a file |
| `store` | a store: a map of any size as one file, and maps of some of its lines |
| `table_of_sources` | where the lines of a store came from |
| `making` | how a store is made of a map's files |
| `packing` | the blocks of a map while its store is made |
| `shortness` | how much shorter lines are than their shapes |
| `options` | what was asked, with which numbers |
| `region` | the discs that the lines of a reference meet |
| `sharing` | references that one map has room for |
| `scratch` | maps in scratch files |
| `current` | a store that is read for a long time, and stays the same map |
"""
