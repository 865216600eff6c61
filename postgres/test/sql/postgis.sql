-- Geometries in and out. Areas are rounded: a last bit is no matter here.
SET client_min_messages = warning;
CREATE EXTENSION postgis;
CREATE EXTENSION yelmuzard_postgis;
RESET client_min_messages;
SET extra_float_digits = 0;
SELECT site, round(area::numeric, 9) AS area, round(reach::numeric, 6) AS reach, ST_AsEWKT(ST_Normalize(ST_ReducePrecision(geom, 1e-9))) AS geom
    FROM yelmuzard_pieces('SRID=32633;MULTIPOINT(2 5, 6 5, 12 5, 99 5)'::geometry, ST_MakeEnvelope(0, 0, 10, 10, 32633)) ORDER BY site;
SELECT id, round(area::numeric, 9) AS area, ST_SRID(geom) FROM yelmuzard_pieces(ARRAY['x','y'], ARRAY['SRID=32633;POINT(2 5)'::geometry, 'SRID=32633;POINT Z(6 5 99)'],
    ST_MakeEnvelope(0, 0, 10, 10, 32633)) ORDER BY id;
SELECT site, round(area::numeric, 9) AS area FROM yelmuzard_pieces('POINT ZM(2 5 7 8)'::geometry, ST_Force3D(ST_MakeEnvelope(0, 0, 10, 10)));
SELECT site, round(area::numeric, 9) AS area FROM yelmuzard_pieces('POINT(2 5)'::geometry, ST_Multi(ST_Reverse(ST_MakeEnvelope(0, 0, 10, 10))));
CREATE TABLE station (id text, place geometry(Point, 25832), mm float8);
INSERT INTO station VALUES ('a', ST_Point(2, 5, 25832), 10), ('b', ST_Point(6, 5, 25832), NULL), ('c', ST_Point(9, 5, 25832), 5), ('d', NULL, 7);
SELECT round(yelmuzard_volume(place, mm, frame)::numeric, 9) AS volume, round(yelmuzard_mean(place, mm, frame)::numeric, 9) AS mean FROM station, ST_MakeEnvelope(0, 0, 10, 10, 25832) frame;
SELECT (yelmuzard_rollup(place, mm, frame)).silent FROM station, ST_MakeEnvelope(0, 0, 10, 10, 25832) frame;
-- refused, with the way out
\t
\a
SELECT told($$SELECT * FROM yelmuzard_pieces('SRID=32633;MULTIPOINT(2 5, 6 5)'::geometry, ST_MakeEnvelope(0, 0, 10, 10, 4326))$$);
SELECT told($$SELECT * FROM yelmuzard_pieces(ARRAY[1,2], ARRAY['SRID=32633;POINT(2 5)'::geometry, 'SRID=25832;POINT(6 5)'], ST_MakeEnvelope(0, 0, 10, 10, 32633))$$);
SELECT told($$SELECT yelmuzard_volume(place, mm, ST_MakeEnvelope(0, 0, 10, 10, 25833)) FROM station$$);
SELECT told($$SELECT yelmuzard_volume(place, mm, ST_MakeEnvelope(0, 0, 10 + coalesce(mm, 0), 10, 25832)) FROM station$$);
SELECT told($$SELECT * FROM yelmuzard_pieces('MULTIPOINT(2 5, 6 5)'::geometry, 'POLYGON((0 0, 10 0, 5 10, 0 0))'::geometry)$$);
SELECT told($$SELECT * FROM yelmuzard_pieces('MULTIPOINT(2 5, 6 5)'::geometry, ST_Rotate(ST_MakeEnvelope(0, 0, 10, 10), .1))$$);
SELECT told($$SELECT * FROM yelmuzard_pieces('MULTIPOINT(2 5, 6 5)'::geometry, 'POLYGON EMPTY'::geometry)$$);
SELECT told($$SELECT * FROM yelmuzard_pieces('MULTIPOINT(2 5, 6 5)'::geometry, ST_MakeEnvelope(0, 0, 0, 10))$$);
SELECT told($$SELECT * FROM yelmuzard_pieces('LINESTRING(2 5, 6 5)'::geometry, ST_MakeEnvelope(0, 0, 10, 10))$$);
SELECT told($$SELECT * FROM yelmuzard_pieces(ARRAY[1], ARRAY['LINESTRING(2 5, 6 5)'::geometry], ST_MakeEnvelope(0, 0, 10, 10))$$);
SELECT told($$SELECT * FROM yelmuzard_pieces(ARRAY['x','y','z'], ARRAY['POINT(2 5)'::geometry, NULL, 'POINT(6 5)'], ST_MakeEnvelope(0, 0, 10, 10))$$);
SELECT told($$SELECT * FROM yelmuzard_pieces(ARRAY['x','y','z'], ARRAY['POINT(2 5)'::geometry, 'POINT EMPTY', 'POINT(6 5)'], ST_MakeEnvelope(0, 0, 10, 10))$$);
SELECT told($$SELECT * FROM yelmuzard_pieces('MULTIPOINT EMPTY'::geometry, ST_MakeEnvelope(0, 0, 10, 10))$$);
SELECT told($$SELECT * FROM yelmuzard_pieces(ST_Collect('POINT(2 5)'::geometry, 'POINT EMPTY'), ST_MakeEnvelope(0, 0, 10, 10))$$);
SELECT told($$SELECT * FROM yelmuzard_pieces(ST_Collect('POINT(2 5)'::geometry, ST_Point('NaN', 'NaN')), ST_MakeEnvelope(0, 0, 10, 10))$$);
SELECT told($$SELECT * FROM yelmuzard_pieces(ST_Collect('POINT(2 5)'::geometry, ST_Point(3, 'NaN')), ST_MakeEnvelope(0, 0, 10, 10))$$);
SELECT told($$SELECT * FROM yelmuzard_pieces('SRID=4326;LINESTRING(2 5, 6 5)'::geometry, ST_MakeEnvelope(0, 0, 10, 10))$$);
SELECT told($$SELECT * FROM yelmuzard_pieces('POINT(2 5)'::geography, ST_MakeEnvelope(0, 0, 10, 10, 4326)::geography)$$);
SELECT told($$SELECT yelmuzard_volume('POINT(2 5)'::geography, 5, ST_MakeEnvelope(0, 0, 10, 10, 4326)::geography)$$);
SELECT told($$SELECT yelmuzard_audit(ARRAY['POINT(2 5)'::geometry], ARRAY['LINESTRING(2 5, 6 5)'::geometry], ST_MakeEnvelope(0, 0, 10, 10))$$);
\t
\a
-- 500 gauges beside PostGIS's own pieces
CREATE TABLE g AS SELECT i AS id, ST_Point(400000 + 1000 * ((i * 7919) % 100003) / 100003.0, 5800000 + 1000 * ((i * 104729) % 99991) / 99991.0, 32633) AS geom FROM generate_series(1, 500) i;
CREATE VIEW lists AS SELECT array_agg(id ORDER BY id) AS ids, array_agg(geom ORDER BY id) AS pts FROM g;
CREATE TABLE piece AS SELECT p.* FROM lists, yelmuzard_pieces(ids, pts, ST_MakeEnvelope(400000, 5800000, 401000, 5801000, 32633)) p;
WITH cells AS (SELECT (ST_Dump(ST_VoronoiPolygons(ST_Collect(geom), 0, ST_MakeEnvelope(399000, 5799000, 402000, 5802000, 32633)))).geom AS cell FROM g),
     theirs AS (SELECT g.id, ST_Area(ST_Intersection(cell, ST_MakeEnvelope(400000, 5800000, 401000, 5801000, 32633))) AS area FROM g JOIN cells ON ST_Intersects(cell, g.geom))
SELECT count(*), max(abs(o.area - t.area) / t.area) < 1e-9 AS same, abs(sum(o.area) / 1e6 - 1) < 1e-12 AS whole, bool_and(ST_IsValid(o.geom)) AS valid,
    max(abs(ST_Area(o.geom) - o.area) / o.area) < 1e-9 AS own_area FROM piece o JOIN theirs t USING (id);
-- a geometry is kept as PostGIS keeps it, to the byte; and points are read the same in whatever way they are kept
CREATE FUNCTION kept(away float8, srid int, OUT pieces bigint, OUT otherwise bigint, OUT whole boolean) LANGUAGE SQL AS $$
    SELECT count(*), count(*) FILTER (WHERE NOT record_image_eq(ROW(a.geom), ROW(ST_SetSRID(ST_GeomFromWKB(b.piece), srid)))), abs(sum(a.area) / 1e6 - 1) < 1e-12
    FROM (SELECT ST_Collect(ST_Point(ST_X(geom) - away, ST_Y(geom) - 14.5 * away, srid) ORDER BY id) AS pts, array_agg(point(ST_X(geom) - away, ST_Y(geom) - 14.5 * away) ORDER BY id) AS list FROM g) q,
        ST_MakeEnvelope(400000 - away, 5800000 - 14.5 * away, 401000 - away, 5801000 - 14.5 * away, srid) frame, yelmuzard_pieces(pts, frame) a
        JOIN LATERAL yelmuzard_pieces(list, box(point(400000 - away, 5800000 - 14.5 * away), point(401000 - away, 5801000 - 14.5 * away))) b USING (site) $$;
SELECT away, srid, k.* FROM (VALUES (0::float8, 32633), (400500, 0), (1e6, 999999)) v(away, srid), kept(away, srid) k;
CREATE TABLE way (name text, pts geometry);
ALTER TABLE way ALTER pts SET STORAGE EXTENDED;
INSERT INTO way SELECT 'as it is', ST_Collect(geom ORDER BY id) FROM g UNION ALL SELECT 'Z', ST_Force3D(ST_Collect(geom ORDER BY id)) FROM g UNION ALL SELECT 'M', ST_Force3DM(ST_Collect(geom ORDER BY id)) FROM g
    UNION ALL SELECT 'no extent', ST_Collect(array_agg(postgis_dropbbox(geom) ORDER BY id)) FROM g;
SELECT name, count(*), bool_and(a.area = p.area AND a.reach = p.reach AND record_image_eq(ROW(a.geom), ROW(p.geom))) AS same FROM way, yelmuzard_pieces(pts, ST_MakeEnvelope(400000, 5800000, 401000, 5801000, 32633)) a
    JOIN piece p ON id = site GROUP BY name ORDER BY name;
SELECT site, round(area::numeric, 9) AS area, ST_AsText(geom) AS geom FROM yelmuzard_pieces('MULTIPOINT(99 5, 2 5)'::geometry, ST_MakeEnvelope(0, 0, 10, 10)) ORDER BY site;
-- the stored table: sound, also when rings run the other way; PostGIS's own pieces; one emptied, one exchanged for its neighbour's
CREATE VIEW audit_of_pieces AS SELECT a.* FROM (SELECT array_agg(g.geom ORDER BY id) AS pts, array_agg(p.geom ORDER BY id) AS pieces FROM g JOIN piece p USING (id)) q,
    yelmuzard_audit(pts, pieces, ST_MakeEnvelope(400000, 5800000, 401000, 5801000, 32633)) a;
SELECT sound, fault, site, other, abs(missing) < 1e-12 AS whole FROM audit_of_pieces;
UPDATE piece SET geom = ST_Multi(ST_ForcePolygonCW(geom)) WHERE id % 2 = 0;
UPDATE piece SET geom = ST_ForcePolygonCCW(geom) WHERE id % 2 = 1;
SELECT sound FROM audit_of_pieces;
UPDATE piece SET geom = ST_GeomFromText('POLYGON EMPTY', 32633) WHERE id = 77;
SELECT sound, fault, missing > 1e-4 AS missing FROM audit_of_pieces;
UPDATE piece SET geom = (SELECT geom FROM piece WHERE id = 78) WHERE id = 77;
SELECT sound, fault FROM audit_of_pieces;
