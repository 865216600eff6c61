-- Every total is whole: gauges on the grids that boards survey on, sides of pieces along the box's sides and into its corners.
-- By a build many of these are refused by 13; by cutting all are whole.
CREATE FUNCTION total(pts point[], frame box) RETURNS text LANGUAGE plpgsql AS $$
DECLARE sum float8;
BEGIN
    SELECT sum(a) INTO sum FROM unnest(yelmuzard_areas(pts, frame)) a;
    RETURN CASE WHEN abs(sum / area(frame) - 1) < 1e-12 THEN 'whole' ELSE 'NOT WHOLE' END;
EXCEPTION WHEN OTHERS THEN
    RETURN sqlstate;
END $$;
-- a bisector along a side; into a corner; a box whose sides are sides of pieces
SELECT total(ARRAY[point(-5,5), point(5,5), point(50,50)], box(point(0,0), point(10,10)));
SELECT total(ARRAY[point(-1,1), point(1,-1), point(20,20)], box(point(0,0), point(10,10)));
CREATE TABLE lattice AS SELECT array_agg(point(50 * i - 175, 50 * j - 175) ORDER BY i, j) AS pts FROM generate_series(0, 27) i, generate_series(0, 27) j;
SELECT total(pts, box(point(0,0), point(1000,1000))) FROM lattice;
-- gauges on a 10 m grid in a box of 1 km, at 0 and far from it; in decimetres; degrees
CREATE FUNCTION grid(n integer, seed integer, x0 float8, y0 float8) RETURNS point[] LANGUAGE SQL AS $$
    SELECT array_agg(point(x0 + 10 * (k % 101), y0 + 10 * (k / 101)) ORDER BY k) FROM (SELECT DISTINCT (i::bigint * i * (seed + 7) + i * 7919 * seed) % 10201 AS k FROM generate_series(1, n) i) q $$;
SELECT n, total(grid(n, seed, 0, 0), box(point(0,0), point(1000,1000))) AS total, count(*) FROM unnest(ARRAY[30, 100, 200, 500, 1000, 2000]) n, generate_series(1, 10) seed GROUP BY 1, 2 ORDER BY 1, 2;
SELECT n, total(grid(n, seed, 400000, 5800000), box(point(400000,5800000), point(401000,5801000))) AS total, count(*) FROM unnest(ARRAY[30, 200, 2000]) n, generate_series(1, 10) seed GROUP BY 1, 2 ORDER BY 1, 2;
-- two gauges at one height, or one above the other, on whole metres: each area is exact, though the corners of their border are far outside, beside ghosts
SELECT yelmuzard_areas(ARRAY[point(10,25), point(20,25)], box(point(0,0), point(50,50)));
SELECT count(*), count(*) FILTER (WHERE along[1] = 50 * (a + b) / 2.0 AND up[1] = 50 * (a + b) / 2.0 AND along[2] = 2500 - 50 * (a + b) / 2.0 AND up[2] = 2500 - 50 * (a + b) / 2.0) AS exact
    FROM (SELECT a, b, yelmuzard_areas(ARRAY[point(a, c), point(b, c)], box(point(0,0), point(50,50))) AS along, yelmuzard_areas(ARRAY[point(c, a), point(c, b)], box(point(0,0), point(50,50))) AS up
          FROM (SELECT 1 + k * 7919 % 23 AS a, 26 + k * 104729 % 23 AS b, 3 + k * 31 % 47 AS c FROM generate_series(1::bigint, 500) k) q) r;
