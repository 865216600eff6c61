-- Each refusal: SQLSTATE, message, DETAIL, HINT.
CREATE FUNCTION told(query text) RETURNS text LANGUAGE plpgsql AS $$
DECLARE state text; message text; detail text; hint text;
BEGIN
    EXECUTE query;
    RETURN 'no error';
EXCEPTION WHEN OTHERS THEN
    GET STACKED DIAGNOSTICS state = RETURNED_SQLSTATE, message = MESSAGE_TEXT, detail = PG_EXCEPTION_DETAIL, hint = PG_EXCEPTION_HINT;
    RETURN format('%s | %s | %s | %s', state, message, detail, hint);
END $$;
\t
\a
-- no gauge, too many; as many as are taken
SELECT told($$SELECT yelmuzard_areas('{}'::point[], box(point(0,0), point(1,1)))$$);
SELECT told($$SELECT yelmuzard_areas((SELECT array_agg(point(i % 300, i / 300)) FROM generate_series(1, 65473) i), box(point(0,0), point(1,1)))$$);
SELECT told($$SELECT yelmuzard_volume(point(i % 300, i / 300), 1, box(point(0,0), point(1,1))) FROM generate_series(1, 65473) i$$);
SELECT round(sum(a)::numeric, 6) FROM unnest(yelmuzard_areas((SELECT array_agg(point(i * 7919 % 100003, i * 104729 % 99991)) FROM generate_series(1::bigint, 65472) i), box(point(.37,.37), point(1000.37,1000.37)))) a;
-- NULL, NaN, infinite, too large, too small
SELECT told($$SELECT yelmuzard_areas(ARRAY[point(0,0), NULL], box(point(0,0), point(1,1)))$$);
SELECT told($$SELECT yelmuzard_areas(ARRAY[point(0,0), point('NaN',1), point(1,1)], box(point(0,0), point(1,1)))$$);
SELECT told($$SELECT yelmuzard_areas(ARRAY[point(0,0), point('Infinity',1), point(1,1)], box(point(0,0), point(1,1)))$$);
SELECT told($$SELECT yelmuzard_areas(ARRAY[point(0,0), point(1,1e36), point(1,1)], box(point(0,0), point(1,1)))$$);
SELECT told($$SELECT yelmuzard_areas(ARRAY[point(0,0), point(1,1), point(1e-300,1)], box(point(0,0), point(1,1)))$$);
SELECT told($$SELECT yelmuzard_volume(p, 1, box(point(0,0), point(1,1))) FROM (VALUES (point(1,1)), (point('NaN',5))) v(p)$$);
SELECT yelmuzard_areas(NULL, box(point(0,0), point(1,1))) IS NULL, yelmuzard_areas(ARRAY[point(0,0)], NULL) IS NULL;
-- the box
SELECT told($$SELECT yelmuzard_areas(ARRAY[point(0,0), point(1,1)], box(point(0,0), point(0,1)))$$);
SELECT told($$SELECT yelmuzard_areas(ARRAY[point(0,0), point(1,1)], box(point(0,0), point('Infinity',1)))$$);
SELECT told($$SELECT yelmuzard_areas(ARRAY[point(0,0), point(1,1)], box(point(0,0), point('NaN',1)))$$);
SELECT told($$SELECT yelmuzard_areas(ARRAY[point(0,0), point(1,1)], box(point(0,0), point(1e36,1)))$$);
SELECT told($$SELECT yelmuzard_areas(ARRAY[point(0,0), point(1,1)], box(point(0,0), point(1e-300,1)))$$);
-- two gauges at one place: both are named, and neither is taken in silence
SELECT told($$SELECT yelmuzard_areas(ARRAY[point(0,0), point(1,0), point(0,1), point(1,0)], box(point(0,0), point(1,1)))$$);
SELECT told($$SELECT yelmuzard_areas(ARRAY[point(0,0), point(1,0), point('-0',0)], box(point(0,0), point(1,1)))$$);
SELECT told($$SELECT yelmuzard_volume(ARRAY[point(0,0), point(1,0), point(0,1), point(1,0)], ARRAY[NULL,1,1,1], box(point(0,0), point(1,1)))$$);
SELECT told($$SELECT yelmuzard_volume(p, 1, box(point(0,0), point(1,1))) FROM (VALUES (point(1,.5)), (point(0,.25)), (point(1,.5))) v(p)$$);
-- lists and rows that do not fit
SELECT told($$SELECT yelmuzard_areas(ARRAY[[point(0,0), point(1,1)]], box(point(0,0), point(1,1)))$$);
SELECT told($$SELECT yelmuzard_volume(ARRAY[point(0,0), point(1,1)], ARRAY[1], box(point(0,0), point(1,1)))$$);
SELECT told($$SELECT yelmuzard_volume(ARRAY[point(0,0), point(1,1)], ARRAY[[1,2]], box(point(0,0), point(1,1)))$$);
SELECT told($$SELECT * FROM yelmuzard_pieces(ARRAY[1], ARRAY[point(0,0), point(1,1)], box(point(0,0), point(1,1)))$$);
SELECT told($$SELECT * FROM yelmuzard_pieces(ARRAY[[1,2]], ARRAY[point(0,0), point(1,1)], box(point(0,0), point(1,1)))$$);
SELECT told($$SELECT yelmuzard_audit(ARRAY[point(0,0), point(1,1)], ARRAY['\x010300000000000000'::bytea], box(point(0,0), point(1,1)))$$);
SELECT told($$SELECT yelmuzard_audit(ARRAY[point(0,0)], ARRAY['\x0102'::bytea], box(point(0,0), point(1,1)))$$);
SELECT told($$SELECT yelmuzard_audit(ARRAY[point(0,0)], ARRAY['\x0101000000000000000000f03f000000000000f03f'::bytea], box(point(0,0), point(1,1)))$$);
SELECT told($$SELECT yelmuzard_area(point(i, i), box(point(0,0), point(i, 10))) OVER () FROM generate_series(1, 3) i$$);
SELECT told($$SELECT yelmuzard_area(point(i, i), NULL) OVER () FROM generate_series(1, 3) i$$);
SELECT told($$SELECT yelmuzard_volume(point(i, i), 1, box(point(0,0), point(i, 10))) FROM generate_series(1, 3) i$$);
SELECT told($$SELECT yelmuzard_volume(point(i, i), 1, NULL) FROM generate_series(1, 3) i$$);
SELECT told($$SELECT yelmuzard_nearest(ARRAY[point(0,0)], ARRAY[point(1,1), point(1,'NaN')])$$);
SELECT told($$SELECT yelmuzard_nearest(ARRAY[point(0,0)], ARRAY[point(1,1), NULL])$$);
SELECT told($$SELECT yelmuzard_nearest('{}'::point[], ARRAY[point(1,1)])$$);
