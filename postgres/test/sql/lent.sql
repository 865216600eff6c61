-- Meshes that are lent: the build's answer, its refusals, and what the audit finds in what a build answers.
\set square 'ARRAY[point(-.5,-.5), point(-.5,.5), point(.5,.5), point(.5,-.5)]'
\set two 'box(point(-1,-1), point(1,1))'
SELECT site, area, reach, piece FROM yelmuzard_mesh_pieces(:square, ARRAY[0,1,2,0,2,3], ARRAY[-1,-1,3,2,-1,-1], ARRAY[0,1,2,3], :two) ORDER BY site;
SELECT site, area FROM yelmuzard_mesh_pieces(:square, ARRAY[0,1,2,0,2,3], NULL, NULL, :two) ORDER BY site;
SELECT * FROM yelmuzard_why(:square, ARRAY[0,1,2,0,2,3], ARRAY[-1,-1,3,2,-1,-1], ARRAY[0,1,2,3], :two);
SELECT * FROM yelmuzard_why(:square, ARRAY[0,1,2,0,2,3], ARRAY[-1,-1,3,2,-1,-1], ARRAY[0,1,2], :two);
SELECT * FROM yelmuzard_why(ARRAY[point(-1,-1), point(1,-1), point(0,-3)], ARRAY[0,1,2], NULL, NULL, box(point(-2,-2), point(2,2)));
\t
\a
-- 1, 3, 6 to 11, 13, 14, 19; 12 takes a hull edge of 2^-540, 16 to 18 and 20 are not asked here
SELECT told($$SELECT yelmuzard_mesh_pieces(ARRAY[point(0,0), point(1,0), point(0,1)], ARRAY[0,1], NULL, NULL, box(point(0,0), point(1,1)))$$);
SELECT told($$SELECT yelmuzard_mesh_pieces(ARRAY[point(0,0), point(1,0)], ARRAY[0,1,0], NULL, NULL, box(point(0,0), point(1,1)))$$);
SELECT told($$SELECT yelmuzard_mesh_pieces(ARRAY[point(0,0), point(1,0), point(0,1)], ARRAY[0,2,1], ARRAY[-1,-1], ARRAY[0,2,1], box(point(0,0), point(1,1)))$$);
SELECT told($$SELECT yelmuzard_mesh_pieces(ARRAY[point(0,0), point(1,0), point(0,1)], ARRAY[0,2,1], NULL, NULL, box(point(0,0), point(0,1)))$$);
SELECT told($$SELECT yelmuzard_mesh_pieces(ARRAY[point(0,0), point('NaN',0), point(0,1)], ARRAY[0,2,1], ARRAY[-1,-1,-1], ARRAY[0,2,1], box(point(0,0), point(1,1)))$$);
SELECT told($$SELECT yelmuzard_mesh_pieces(ARRAY[point(0,0), point(1,0), point(0,1)], ARRAY[0,1,0], ARRAY[-1,-1,-1], ARRAY[0,1,2], box(point(0,0), point(1,1)))$$);
SELECT told($$SELECT yelmuzard_mesh_pieces(ARRAY[point(-.5,-.5), point(-.5,.5), point(.5,.5), point(.5,-.5)], ARRAY[0,1,2,0,2,3], ARRAY[-1,-1,3,-1,-1,-1], ARRAY[0,1,2,3], box(point(-1,-1), point(1,1)))$$);
SELECT told($$SELECT yelmuzard_mesh_pieces(ARRAY[point(-.5,-.5), point(-.5,.5), point(.5,.5), point(.5,-.5)], ARRAY[0,1,2,0,2,3], ARRAY[-1,-1,3,2,-1,-1], ARRAY[0,1,2], box(point(-1,-1), point(1,1)))$$);
SELECT told($$SELECT yelmuzard_mesh_pieces(ARRAY[point(0,0), point(0,1), point(1,0), point(-1,0), point(-1,-1)], ARRAY[0,1,2,0,3,4,0,4,3], ARRAY[-1,-1,-1,8,7,6,5,4,3], ARRAY[0,1,2], box(point(-2,-2), point(2,2)))$$);
SELECT told($$SELECT yelmuzard_mesh_pieces(ARRAY[point(0,0), point(1,0), point(2,0)], ARRAY[0,1,2], NULL, NULL, box(point(-1,-1), point(1,1)))$$);
SELECT told($$SELECT yelmuzard_mesh_pieces(ARRAY[point(-.5,0), point(.5,.5), point(.75,.5)], ARRAY[0,1,2], NULL, NULL, box(point(-1,-1), point(1,1)))$$);
SELECT told($$SELECT yelmuzard_mesh_pieces(ARRAY[point(-.5,-.5), point(-.5,.5), point(.5,.5), point(.5,-.5)], ARRAY[0,1,2,0,2,3], NULL, NULL, box(point(-2e10,-2e10), point(2e10,2e10)))$$);
SELECT told($$SELECT yelmuzard_mesh_pieces(ARRAY[point(0,0), point(1,0), point(0,1), point(1,1)], ARRAY[0,1,2,0,1,3], NULL, NULL, box(point(-1,-1), point(1,1)))$$);
-- arguments
SELECT told($$SELECT yelmuzard_mesh_pieces(ARRAY[point(0,0), point(1,0), point(0,1)], NULL, NULL, NULL, box(point(0,0), point(1,1)))$$);
SELECT told($$SELECT yelmuzard_mesh_pieces(ARRAY[point(0,0), point(1,0), point(0,1)], ARRAY[0,2,1], NULL, ARRAY[0,2,1], box(point(0,0), point(1,1)))$$);
SELECT told($$SELECT yelmuzard_mesh_pieces(ARRAY[point(0,0), point(1,0), point(0,1)], ARRAY[0,2,NULL], NULL, NULL, box(point(0,0), point(1,1)))$$);
SELECT told($$SELECT yelmuzard_mesh_pieces(ARRAY[point(0,0), point(1,0), point(0,1)], ARRAY[[0,2,1]], NULL, NULL, box(point(0,0), point(1,1)))$$);
-- the audit: a ring that runs the wrong way; a corner that is lost; two gauges at one place
SELECT told($$SELECT yelmuzard_mesh_pieces(ARRAY[point(-.5,-.5), point(-.5,.5), point(.5,.5), point(.5,-.5)], ARRAY[0,2,1,0,3,2], NULL, NULL, box(point(-1,-1), point(1,1)))$$);
SELECT told($$SELECT yelmuzard_mesh_pieces(ARRAY[point(0,.5), point(.5,.5), point(.5,0)], ARRAY[0,1,2], ARRAY[-1,-1,-1], ARRAY[2,0,1], box(point(-1,-1), point(1,1)))$$);
SELECT told($$SELECT yelmuzard_mesh_pieces(ARRAY[point(-.5,-.5), point(-.5,.5), point(.5,.5), point(.5,-.5), point(.5,.5)], ARRAY[0,1,2,0,2,3], NULL, NULL, box(point(-1,-1), point(1,1)))$$);
-- the accident: every rule accepts its mesh, and no corner is lost; from its points alone the total is whole
\set seven 'ARRAY[point(20,44), point(21,10), point(36,23), point(38,73), point(39,55), point(53,43), point(90,13)]'
CREATE TABLE accident AS SELECT :seven AS pts, ARRAY[0,2,1,2,0,4,0,3,4,4,6,5,2,4,5,4,3,6,2,5,6,1,2,6] AS triangles,
    ARRAY[3,21,-1,0,8,12,-1,15,4,17,19,13,5,11,18,7,-1,9,14,10,22,1,20,-1] AS halfedges, ARRAY[0,3,6,1] AS hull, box(point(0,0), point(100,80)) AS frame;
SELECT told($$SELECT yelmuzard_mesh_pieces(pts, triangles, halfedges, hull, frame) FROM accident$$);
SELECT number, reason FROM accident, yelmuzard_why(pts, triangles, halfedges, hull, frame);
SELECT round(sum(area)::numeric, 9) FROM accident, yelmuzard_pieces(pts, frame);
