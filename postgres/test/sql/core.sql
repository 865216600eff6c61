-- What each function answers, on gauges that can be reckoned in the head. Areas are rounded: a last bit is no matter here.
CREATE EXTENSION yelmuzard;
SET extra_float_digits = 0;
CREATE FUNCTION rounded(float8[]) RETURNS numeric[] LANGUAGE SQL AS 'SELECT array_agg(round(x::numeric, 9) ORDER BY k) FROM unnest($1) WITH ORDINALITY u(x, k)';
\set unit 'box(point(0,0), point(10,10))'
-- "square" of docs/use/RULES.md: four pieces of 1
SELECT site, round(area::numeric, 9) AS area, round(reach::numeric, 6) AS reach, length(piece) > 9 AS polygon FROM yelmuzard_pieces(
    ARRAY[point(-.5,-.5), point(-.5,.5), point(.5,.5), point(.5,-.5)], box(point(-1,-1), point(1,1))) ORDER BY site;
-- one gauge, two, three, on a line, on a slanting line
SELECT rounded(yelmuzard_areas(ARRAY[point(3,4)], :unit));
SELECT rounded(yelmuzard_areas(ARRAY[point(2,5), point(6,5)], :unit));
SELECT rounded(yelmuzard_areas(ARRAY[point(1,1), point(9,1), point(5,9)], :unit));
SELECT rounded(yelmuzard_areas(ARRAY[point(2,5), point(6,5), point(8,5)], :unit));
SELECT rounded(yelmuzard_areas(ARRAY[point(1,1), point(2,2), point(3,3), point(8,8)], :unit));
-- a box within one piece; a gauge far outside that has one; a box far from 0
SELECT rounded(yelmuzard_areas(ARRAY[point(0,0), point(100,0), point(0,100), point(100,100)], box(point(1,1), point(2,2))));
SELECT rounded(yelmuzard_areas(ARRAY[point(-50,5), point(60,5)], :unit));
SELECT rounded(yelmuzard_areas(ARRAY[point(400002,5800005), point(400006,5800005)], box(point(400000,5800000), point(400010,5800010))));
-- an empty piece has a row: no area, no reach, POLYGON EMPTY
SELECT site, area, reach, piece FROM yelmuzard_pieces(ARRAY[point(5,5), point(100,5)], :unit) WHERE site = 2;
-- by the caller's keys, of any type, in the order of the list
SELECT id, round(area::numeric, 9) AS area FROM yelmuzard_pieces(ARRAY['north','south'], ARRAY[point(5,8), point(5,2)], :unit);
SELECT id, round(area::numeric, 9) AS area FROM yelmuzard_pieces(ARRAY[date '2026-11-01', NULL], ARRAY[point(5,8), point(5,2)], :unit);
SELECT id, round(area::numeric, 9) AS area FROM yelmuzard_pieces('[5:6]={7,8}'::int[], '[3:4]={"(5,8)","(5,2)"}'::point[], :unit);
-- of each row, in a window; a gauge without a place has no area
CREATE TABLE sheet (id integer PRIMARY KEY, frame box);
INSERT INTO sheet VALUES (1, box(point(0,0), point(10,10))), (2, box(point(10,0), point(20,10)));
CREATE TABLE gauge (id text PRIMARY KEY, sheet integer REFERENCES sheet, place point);
INSERT INTO gauge VALUES ('a', 1, point(2,5)), ('b', 1, point(6,5)), ('c', 1, NULL), ('d', 2, point(12,5)), ('e', 2, point(18,2)), ('f', 2, point(18,8));
SELECT g.id, sheet, round((yelmuzard_area(place, frame) OVER (PARTITION BY sheet))::numeric, 9) AS area,
    length(yelmuzard_piece(place, frame) OVER (PARTITION BY sheet)) AS bytes FROM gauge g JOIN sheet s ON s.id = sheet ORDER BY g.id;
-- a day's volume, mean and what it rests on; then one gauge says nothing: its ground goes to its neighbours, and even rain stays the box's
CREATE TABLE reading (gauge text REFERENCES gauge, day date, mm float8);
INSERT INTO reading SELECT id, date '2026-11-01', 10 FROM gauge;
INSERT INTO reading SELECT id, date '2026-11-02', CASE WHEN id <> 'e' THEN 10 END FROM gauge;
INSERT INTO reading SELECT id, date '2026-11-03', NULL FROM gauge;
CREATE VIEW rows AS SELECT sheet, day, place, mm, frame FROM gauge g JOIN sheet s ON s.id = sheet JOIN reading r ON r.gauge = g.id;
SELECT sheet, day, round(yelmuzard_volume(place, mm, frame)::numeric, 9) AS volume, round(yelmuzard_mean(place, mm, frame)::numeric, 9) AS mean
    FROM rows GROUP BY sheet, day ORDER BY sheet, day;
SELECT sheet, day, round((r).volume::numeric, 9) AS volume, round((r).mean::numeric, 9) AS mean, (r).gauges, (r).silent, (r).sound, (r).fault
    FROM (SELECT sheet, day, yelmuzard_rollup(place, mm, frame) AS r FROM rows GROUP BY sheet, day) q ORDER BY sheet, day;
SELECT yelmuzard_volume(place, mm, frame) IS NULL AS volume, yelmuzard_mean(place, mm, frame) IS NULL AS mean, yelmuzard_rollup(place, mm, frame) IS NULL AS rollup FROM rows WHERE false;
-- the answer is the same to the bit in whatever order the rows come
SELECT count(DISTINCT v) FROM (SELECT k, yelmuzard_volume(p, mm, box(point(0,0), point(97,89)) ORDER BY md5((i * k)::text)) AS v
    FROM generate_series(1, 20) k, (SELECT i, point(i * 7919 % 9973 / 100.0, i * 104729 % 9967 / 110.0) AS p, i % 17 / 3.0::float8 AS mm FROM generate_series(1, 300) i) q GROUP BY k) q;
-- the same of lists; twins where the row form names the place and tells it as a fault
SELECT round(yelmuzard_volume(ARRAY[point(2,5), point(6,5)], ARRAY[10, NULL], :unit)::numeric, 9) AS volume, round(yelmuzard_mean(ARRAY[point(2,5), point(6,5)], ARRAY[10, 5], :unit)::numeric, 9) AS mean,
    yelmuzard_volume(ARRAY[point(2,5)], ARRAY[NULL]::float8[], :unit) IS NULL AS none;
SELECT (yelmuzard_rollup(place, 1, :unit)).* FROM (VALUES (point(2,5)), (point(3,3)), (point(2,5))) v(place);
-- common sides and their lengths; the nearest gauge
SELECT site, neighbour, round(border::numeric, 9) AS border FROM yelmuzard_neighbours(ARRAY[point(2,5), point(6,5), point(9,5)], :unit);
SELECT site, neighbour, round(border::numeric, 6) AS border FROM yelmuzard_neighbours(ARRAY[point(1,1), point(9,1), point(5,9)], :unit);
SELECT * FROM yelmuzard_neighbours(ARRAY[point(5,5)], :unit);
SELECT yelmuzard_nearest(ARRAY[point(2,5), point(6,5), point(9,5)], ARRAY[point(0,0), point(5,5), point(100,5), point(7.4,0), point(-1e9,1e9)]);
SELECT yelmuzard_nearest(ARRAY[point(3,4)], ARRAY[point(3,4)]), yelmuzard_nearest(ARRAY[point(0,0), point(-3,4)], ARRAY[point(0,0)]), yelmuzard_nearest(ARRAY[point(3,4)], '{}');
SELECT count(*) FROM (SELECT array_agg(point(i * 7919 % 9973, i * 104729 % 9967)) AS pts FROM generate_series(1, 400) i) g,
    (SELECT array_agg(point(i * 31 % 9973, i * 37 % 9967)) AS asked FROM generate_series(1, 2000) i) a, unnest(asked, yelmuzard_nearest(pts, asked)) u(p, s)
    WHERE (p <-> pts[s]) > (SELECT min(p <-> q) FROM unnest(pts) q);
-- pieces from anywhere: a table that was stored, one emptied, two exchanged, rings that run the other way or begin elsewhere
CREATE TABLE stored AS SELECT p.* FROM (SELECT array_agg(place ORDER BY id) AS pts FROM gauge WHERE sheet = 2) g, yelmuzard_pieces(pts, box(point(10,0), point(20,10))) p;
CREATE VIEW audit AS SELECT a.* FROM (SELECT array_agg(place ORDER BY id) AS pts FROM gauge WHERE sheet = 2) g, (SELECT array_agg(piece ORDER BY site) AS pieces FROM stored) s,
    yelmuzard_audit(pts, pieces, box(point(10,0), point(20,10))) a;
SELECT sound, fault, site, other, round(missing::numeric, 9) AS missing FROM audit;
UPDATE stored SET piece = '\x000000000300000000' WHERE site = 1; -- big-endian, no ring
SELECT sound, fault, site, other, round(missing::numeric, 9) AS missing FROM audit;
UPDATE stored SET piece = (SELECT piece FROM stored WHERE site = 3) WHERE site = 1;
SELECT sound, fault, site, other FROM audit;
-- each fault of the certificate, in its own words: pieces of two gauges whose border is x = 4
CREATE FUNCTION rectangle(l float8, t float8, r float8, b float8) RETURNS bytea LANGUAGE SQL AS $$
    SELECT '\x00000000030000000100000005'::bytea || float8send(l) || float8send(t) || float8send(r) || float8send(t) || float8send(r) || float8send(b) || float8send(l) || float8send(b) || float8send(l) || float8send(t) $$;
SELECT words, sound, fault, site, other, round(missing::numeric, 9) AS missing FROM (VALUES
    (1, 'as they are', point(6,5), ARRAY[rectangle(0,0,4,10), rectangle(4,0,10,10)]),
    (2, 'beyond the box', point(6,5), ARRAY[rectangle(0,0,4,10), rectangle(4,0,10.5,10)]),
    (3, 'a gap between them', point(6,5), ARRAY[rectangle(0,0,3.75,10), rectangle(4,0,10,10)]),
    (4, 'one over the other', point(6,5), ARRAY[rectangle(0,0,4.25,10), rectangle(4,0,10,10)]),
    (5, 'none at all', point(6,5), ARRAY[NULL, NULL]::bytea[]),
    (6, 'everything twice', point(6,5), ARRAY[rectangle(0,0,10,10), rectangle(0,0,10,10)]),
    (7, 'the border moved', point(6,5), ARRAY[rectangle(0,0,4.25,10), rectangle(4.25,0,10,10)]),
    (8, 'exchanged', point(6,5), ARRAY[rectangle(4,0,10,10), rectangle(0,0,4,10)]),
    (9, 'two gauges at one place', point(2,5), ARRAY[rectangle(0,0,10,10), NULL])) v(k, words, second, pieces),
    yelmuzard_audit(ARRAY[point(2,5), second], pieces, :unit) ORDER BY k;
-- what the planner and the catalogue say
EXPLAIN (COSTS OFF) SELECT * FROM yelmuzard_pieces(ARRAY[point(2,5), point(6,5)], :unit);
SELECT provolatile, proparallel, count(*) FROM pg_proc WHERE proname LIKE 'yelmuzard%' GROUP BY 1, 2 ORDER BY 1, 2;
SELECT proname FROM pg_proc WHERE proname LIKE 'yelmuzard%' AND NOT proisstrict AND prokind <> 'a' ORDER BY 1;
