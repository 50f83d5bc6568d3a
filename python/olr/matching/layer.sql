-- A layer of rows behind the tables that every GeoPackage has, as GDAL makes it: with its count of rows, and the index of places with the
-- triggers of https://www.geopackage.org/spec120/#extension_rtree.
CREATE TABLE gpkg_ogr_contents (table_name TEXT NOT NULL PRIMARY KEY, feature_count INTEGER DEFAULT NULL);
INSERT INTO gpkg_ogr_contents VALUES ('{layer}', 0);
INSERT INTO gpkg_contents (table_name, data_type, identifier, srs_id) VALUES ('{layer}', 'features', '{layer}', 4326);
INSERT INTO gpkg_geometry_columns VALUES ('{layer}', 'geom', 'GEOMETRY', 4326, 0, 0);
INSERT INTO gpkg_extensions VALUES
    ('{layer}', 'geom', 'gpkg_rtree_index', 'http://www.geopackage.org/spec120/#extension_rtree', 'write-only');
CREATE TABLE "{layer}" (fid INTEGER PRIMARY KEY AUTOINCREMENT NOT NULL, geom GEOMETRY, {columns});
CREATE VIRTUAL TABLE "rtree_{layer}_geom" USING rtree (id, minx, maxx, miny, maxy);
CREATE TRIGGER "rtree_{layer}_geom_insert" AFTER INSERT ON "{layer}"
    WHEN NEW.geom NOTNULL AND NOT ST_IsEmpty(NEW.geom)
BEGIN
    INSERT OR REPLACE INTO "rtree_{layer}_geom"
        VALUES (NEW.fid, ST_MinX(NEW.geom), ST_MaxX(NEW.geom), ST_MinY(NEW.geom), ST_MaxY(NEW.geom));
END;
CREATE TRIGGER "rtree_{layer}_geom_update1" AFTER UPDATE OF geom ON "{layer}"
    WHEN OLD.fid = NEW.fid AND NEW.geom NOTNULL AND NOT ST_IsEmpty(NEW.geom)
BEGIN
    INSERT OR REPLACE INTO "rtree_{layer}_geom"
        VALUES (NEW.fid, ST_MinX(NEW.geom), ST_MaxX(NEW.geom), ST_MinY(NEW.geom), ST_MaxY(NEW.geom));
END;
CREATE TRIGGER "rtree_{layer}_geom_update2" AFTER UPDATE OF geom ON "{layer}"
    WHEN OLD.fid = NEW.fid AND (NEW.geom ISNULL OR ST_IsEmpty(NEW.geom))
BEGIN
    DELETE FROM "rtree_{layer}_geom" WHERE id = OLD.fid;
END;
CREATE TRIGGER "rtree_{layer}_geom_update3" AFTER UPDATE ON "{layer}"
    WHEN OLD.fid != NEW.fid AND NEW.geom NOTNULL AND NOT ST_IsEmpty(NEW.geom)
BEGIN
    DELETE FROM "rtree_{layer}_geom" WHERE id = OLD.fid;
    INSERT OR REPLACE INTO "rtree_{layer}_geom"
        VALUES (NEW.fid, ST_MinX(NEW.geom), ST_MaxX(NEW.geom), ST_MinY(NEW.geom), ST_MaxY(NEW.geom));
END;
CREATE TRIGGER "rtree_{layer}_geom_update4" AFTER UPDATE ON "{layer}"
    WHEN OLD.fid != NEW.fid AND (NEW.geom ISNULL OR ST_IsEmpty(NEW.geom))
BEGIN
    DELETE FROM "rtree_{layer}_geom" WHERE id IN (OLD.fid, NEW.fid);
END;
CREATE TRIGGER "rtree_{layer}_geom_delete" AFTER DELETE ON "{layer}" WHEN OLD.geom NOTNULL
BEGIN
    DELETE FROM "rtree_{layer}_geom" WHERE id = OLD.fid;
END;
CREATE TRIGGER "trigger_insert_feature_count_{layer}" AFTER INSERT ON "{layer}"
BEGIN
    UPDATE gpkg_ogr_contents SET feature_count = feature_count + 1 WHERE lower(table_name) = lower('{layer}');
END;
CREATE TRIGGER "trigger_delete_feature_count_{layer}" AFTER DELETE ON "{layer}"
BEGIN
    UPDATE gpkg_ogr_contents SET feature_count = feature_count - 1 WHERE lower(table_name) = lower('{layer}');
END;
