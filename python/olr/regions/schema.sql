-- The tables of a store behind those of every GeoPackage: a map's, then what olr-tools knows of the map.
INSERT INTO gpkg_contents (table_name, data_type, identifier, description, srs_id, last_change) VALUES
    ('lines', 'features', 'lines', 'directions of travel on roads', 4326, '2000-01-01T00:00:00.000Z'),
    ('nodes', 'attributes', 'nodes', 'ends of lines', NULL, '2000-01-01T00:00:00.000Z');
INSERT INTO gpkg_geometry_columns VALUES ('lines', 'geom', 'LINESTRING', 4326, 0, 0);
INSERT INTO gpkg_extensions VALUES
    ('lines', 'geom', 'gpkg_rtree_index', 'http://www.geopackage.org/spec120/#extension_rtree', 'write-only');

-- The map for other programs. Coordinates of nodes are in microdegrees, those of geometries in degrees. `length` is in decimetres.
CREATE TABLE nodes (id INTEGER PRIMARY KEY, lon INTEGER NOT NULL, lat INTEGER NOT NULL);
CREATE TABLE lines (
    id INTEGER PRIMARY KEY,
    from_node INTEGER NOT NULL,
    to_node INTEGER NOT NULL,
    class INTEGER NOT NULL,
    form INTEGER NOT NULL,
    length INTEGER NOT NULL,
    geom LINESTRING NOT NULL
);
CREATE VIRTUAL TABLE rtree_lines_geom USING rtree (id, minx, maxx, miny, maxy);
CREATE TABLE bans (first INTEGER NOT NULL, second INTEGER NOT NULL, PRIMARY KEY (first, second)) WITHOUT ROWID;

-- What olr-tools reads: see store.py for the digests, shortness.py for olr_shorter, and blocks.py for the rest.
CREATE TABLE olr_store (
    version INTEGER NOT NULL,
    digest TEXT NOT NULL,
    nodes INTEGER NOT NULL,
    lines INTEGER NOT NULL,
    bans INTEGER NOT NULL,
    usual DOUBLE NOT NULL,
    greatest DOUBLE NOT NULL,
    nodes_digest BLOB NOT NULL
);
CREATE TABLE olr_shorter (
    line INTEGER PRIMARY KEY,
    lon INTEGER NOT NULL,
    lat INTEGER NOT NULL,
    west INTEGER NOT NULL,
    south INTEGER NOT NULL,
    east INTEGER NOT NULL,
    north INTEGER NOT NULL,
    excess DOUBLE NOT NULL
);
CREATE TABLE olr_blocks (
    block INTEGER PRIMARY KEY,
    west INTEGER NOT NULL,
    south INTEGER NOT NULL,
    east INTEGER NOT NULL,
    north INTEGER NOT NULL,
    digest BLOB NOT NULL
);
CREATE TABLE olr_contents (block INTEGER PRIMARY KEY, content BLOB NOT NULL);
CREATE TABLE olr_places (line INTEGER PRIMARY KEY, block INTEGER NOT NULL);
