\echo Use "CREATE EXTENSION yelmuzard_postgis" to load this file. \quit

-- points: a MultiPoint, or a Point. The frame is a rectangle along the axes, of the same reference system, which the pieces keep
CREATE FUNCTION yelmuzard_pieces(points geometry, frame geometry, OUT site integer, OUT area float8, OUT reach float8, OUT geom geometry) RETURNS SETOF record
    AS 'MODULE_PATHNAME', 'yelmuzard_geometry_pieces' LANGUAGE C IMMUTABLE STRICT PARALLEL SAFE COST 400000 ROWS 1000;
CREATE FUNCTION yelmuzard_pieces(ids anyarray, points geometry[], frame geometry, OUT id anyelement, OUT area float8, OUT reach float8, OUT geom geometry) RETURNS SETOF record
    AS 'MODULE_PATHNAME', 'yelmuzard_geometry_pieces_by_key' LANGUAGE C IMMUTABLE STRICT PARALLEL SAFE COST 400000 ROWS 1000 SUPPORT yelmuzard_support;
CREATE FUNCTION yelmuzard_audit(points geometry[], pieces geometry[], frame geometry, OUT sound boolean, OUT fault text, OUT site integer, OUT other integer,
        OUT missing float8)
    AS 'MODULE_PATHNAME', 'yelmuzard_geometry_audit' LANGUAGE C IMMUTABLE STRICT PARALLEL SAFE COST 400000 SUPPORT yelmuzard_support;

CREATE FUNCTION yelmuzard_volume_add(internal, geometry, float8, geometry) RETURNS internal
    AS 'MODULE_PATHNAME', 'yelmuzard_geometry_add' LANGUAGE C IMMUTABLE PARALLEL SAFE;
CREATE AGGREGATE yelmuzard_volume(place geometry, reading float8, frame geometry)
    (SFUNC = yelmuzard_volume_add, STYPE = internal, SSPACE = 20000, FINALFUNC = yelmuzard_volume_end, PARALLEL = SAFE);
CREATE AGGREGATE yelmuzard_mean(place geometry, reading float8, frame geometry)
    (SFUNC = yelmuzard_volume_add, STYPE = internal, SSPACE = 20000, FINALFUNC = yelmuzard_mean_end, PARALLEL = SAFE);
CREATE AGGREGATE yelmuzard_rollup(place geometry, reading float8, frame geometry)
    (SFUNC = yelmuzard_volume_add, STYPE = internal, SSPACE = 20000, FINALFUNC = yelmuzard_rollup_end, PARALLEL = SAFE);

-- degrees are no plane: said, with the way out, rather than that there is no such function
CREATE FUNCTION yelmuzard_pieces(points geography, frame geography, OUT site integer, OUT area float8, OUT reach float8, OUT geom geography) RETURNS SETOF record
    AS 'MODULE_PATHNAME', 'yelmuzard_refuse_geography' LANGUAGE C IMMUTABLE STRICT PARALLEL SAFE;
CREATE FUNCTION yelmuzard_volume_add(internal, geography, float8, geography) RETURNS internal
    AS 'MODULE_PATHNAME', 'yelmuzard_refuse_geography' LANGUAGE C IMMUTABLE PARALLEL SAFE;
CREATE AGGREGATE yelmuzard_volume(place geography, reading float8, frame geography)
    (SFUNC = yelmuzard_volume_add, STYPE = internal, FINALFUNC = yelmuzard_volume_end, PARALLEL = SAFE);
