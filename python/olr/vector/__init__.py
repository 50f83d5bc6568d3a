"""Maps from vector files: GeoPackage, Shapefile, GeoJSON and what else GDAL reads.

| module | subject |
|---|---|
| `table` | what values mean: class, form, directions |
| `options` | what a user may choose |
| `fields` | what the fields of a record say of its road |
| `system` | the reference system of a layer |
| `packed` | what GDAL opens of a packed file |
| `whole` | whether all records of a file are read |
| `reading` | the roads of a layer, in degrees |
| `joining` | roads joined where their ends meet |
| `importing` | a map from a file |
"""
