\echo Use "CREATE EXTENSION yelmuzard" to load this file. \quit

CREATE FUNCTION yelmuzard_version() RETURNS text AS 'MODULE_PATHNAME' LANGUAGE C IMMUTABLE STRICT PARALLEL SAFE;
CREATE FUNCTION yelmuzard_support(internal) RETURNS internal AS 'MODULE_PATHNAME' LANGUAGE C IMMUTABLE STRICT PARALLEL SAFE;

-- ---- of lists: gauges are numbered from 1, in the order of the points

CREATE FUNCTION yelmuzard_areas(points point[], frame box) RETURNS float8[]
    AS 'MODULE_PATHNAME' LANGUAGE C IMMUTABLE STRICT PARALLEL SAFE COST 400000 SUPPORT yelmuzard_support;

-- a row for each gauge, an empty piece too; piece: a Polygon in Well-Known Binary; reach: the distance to its farthest corner
CREATE FUNCTION yelmuzard_pieces(points point[], frame box, OUT site integer, OUT area float8, OUT reach float8, OUT piece bytea) RETURNS SETOF record
    AS 'MODULE_PATHNAME' LANGUAGE C IMMUTABLE STRICT PARALLEL SAFE COST 400000 ROWS 1000 SUPPORT yelmuzard_support;
CREATE FUNCTION yelmuzard_pieces(ids anyarray, points point[], frame box, OUT id anyelement, OUT area float8, OUT reach float8, OUT piece bytea) RETURNS SETOF record
    AS 'MODULE_PATHNAME', 'yelmuzard_pieces_by_key' LANGUAGE C IMMUTABLE STRICT PARALLEL SAFE COST 400000 ROWS 1000 SUPPORT yelmuzard_support;

CREATE FUNCTION yelmuzard_volume(points point[], readings float8[], frame box) RETURNS float8
    AS 'MODULE_PATHNAME' LANGUAGE C IMMUTABLE STRICT PARALLEL SAFE COST 400000 SUPPORT yelmuzard_support;
CREATE FUNCTION yelmuzard_mean(points point[], readings float8[], frame box) RETURNS float8
    AS 'MODULE_PATHNAME' LANGUAGE C IMMUTABLE STRICT PARALLEL SAFE COST 400000 SUPPORT yelmuzard_support;

-- pieces with a common side in the box, and its length
CREATE FUNCTION yelmuzard_neighbours(points point[], frame box, OUT site integer, OUT neighbour integer, OUT border float8) RETURNS SETOF record
    AS 'MODULE_PATHNAME' LANGUAGE C IMMUTABLE STRICT PARALLEL SAFE COST 400000 ROWS 6000;
-- the number of the gauge that is nearest to each place asked
CREATE FUNCTION yelmuzard_nearest(points point[], asked point[]) RETURNS integer[]
    AS 'MODULE_PATHNAME' LANGUAGE C IMMUTABLE STRICT PARALLEL SAFE COST 200000;

-- whether pieces from anywhere, a stored table above all, are the gauges' pieces
CREATE FUNCTION yelmuzard_audit(points point[], pieces bytea[], frame box, OUT sound boolean, OUT fault text, OUT site integer, OUT other integer, OUT missing float8)
    AS 'MODULE_PATHNAME' LANGUAGE C IMMUTABLE STRICT PARALLEL SAFE COST 400000 SUPPORT yelmuzard_support;

-- ---- of each row: OVER (PARTITION BY ..)

CREATE FUNCTION yelmuzard_area(place point, frame box) RETURNS float8 AS 'MODULE_PATHNAME' LANGUAGE C WINDOW IMMUTABLE PARALLEL SAFE COST 400;
CREATE FUNCTION yelmuzard_piece(place point, frame box) RETURNS bytea AS 'MODULE_PATHNAME' LANGUAGE C WINDOW IMMUTABLE PARALLEL SAFE COST 400;

-- ---- the rollup: readings times areas, of the rows that have a place and a reading

CREATE TYPE yelmuzard_day AS (volume float8, mean float8, gauges bigint, silent bigint, sound boolean, fault text);
CREATE FUNCTION yelmuzard_volume_add(internal, point, float8, box) RETURNS internal AS 'MODULE_PATHNAME' LANGUAGE C IMMUTABLE PARALLEL SAFE;
CREATE FUNCTION yelmuzard_volume_end(internal) RETURNS float8 AS 'MODULE_PATHNAME' LANGUAGE C IMMUTABLE PARALLEL SAFE COST 400000;
CREATE FUNCTION yelmuzard_mean_end(internal) RETURNS float8 AS 'MODULE_PATHNAME' LANGUAGE C IMMUTABLE PARALLEL SAFE COST 400000;
CREATE FUNCTION yelmuzard_rollup_end(internal) RETURNS yelmuzard_day AS 'MODULE_PATHNAME' LANGUAGE C IMMUTABLE PARALLEL SAFE COST 400000;
CREATE AGGREGATE yelmuzard_volume(place point, reading float8, frame box)
    (SFUNC = yelmuzard_volume_add, STYPE = internal, SSPACE = 20000, FINALFUNC = yelmuzard_volume_end, PARALLEL = SAFE);
CREATE AGGREGATE yelmuzard_mean(place point, reading float8, frame box)
    (SFUNC = yelmuzard_volume_add, STYPE = internal, SSPACE = 20000, FINALFUNC = yelmuzard_mean_end, PARALLEL = SAFE);
CREATE AGGREGATE yelmuzard_rollup(place point, reading float8, frame box)
    (SFUNC = yelmuzard_volume_add, STYPE = internal, SSPACE = 20000, FINALFUNC = yelmuzard_rollup_end, PARALLEL = SAFE);

-- ---- a lent mesh: numbers as the library has them, from 0, -1 for no pair; halfedges and hull both NULL: they are worked out of the triangles

CREATE FUNCTION yelmuzard_mesh_pieces(points point[], triangles integer[], halfedges integer[], hull integer[], frame box, OUT site integer, OUT area float8, OUT reach float8,
        OUT piece bytea) RETURNS SETOF record
    AS 'MODULE_PATHNAME' LANGUAGE C IMMUTABLE PARALLEL SAFE COST 200000 ROWS 1000 SUPPORT yelmuzard_support;
CREATE FUNCTION yelmuzard_why(points point[], triangles integer[], halfedges integer[], hull integer[], frame box, OUT number integer, OUT reason text, OUT place text)
    AS 'MODULE_PATHNAME' LANGUAGE C IMMUTABLE PARALLEL SAFE COST 200000;
