-- The same 100,000 points in an SP-GiST index and in SQLite's own R*Tree, and 1,000 rectangles.
PRAGMA temp_store = MEMORY;
CREATE TABLE points(id INTEGER PRIMARY KEY, x INTEGER, y INTEGER);
WITH RECURSIVE s(n, v, w) AS (
    SELECT 1, 12345, 54321
    UNION ALL SELECT n + 1, (v * 1103515245 + 12345) % 2147483648, (w * 22695477 + 1) % 2147483648 FROM s WHERE n < 100000)
INSERT INTO points SELECT n, v / 2148 - 500000, w / 2148 - 500000 FROM s;
CREATE TABLE boxes(x INTEGER, y INTEGER, size INTEGER);
INSERT INTO boxes SELECT x, y, 2000 + id % 37 * 500 FROM points WHERE id % 100 = 0;
CREATE VIRTUAL TABLE quad USING spgist(quad);
CREATE VIRTUAL TABLE kd USING spgist(kd);
CREATE VIRTUAL TABLE rtree USING rtree_i32(id, x1, x2, y1, y2);

.timer on
.print 100,000 inserts in one transaction: quad
INSERT INTO quad(rowid, x, y) SELECT id, x, y FROM points;
.print kd
INSERT INTO kd(rowid, x, y) SELECT id, x, y FROM points;
.print R*Tree
INSERT INTO rtree SELECT id, x, x, y, y FROM points;

.print 1,000 rectangles, rows and the sum of their ids: quad
SELECT count(*), sum(p.rowid) FROM boxes b CROSS JOIN quad p WHERE p.x BETWEEN b.x AND b.x + size AND p.y BETWEEN b.y AND b.y + size;
.print kd
SELECT count(*), sum(p.rowid) FROM boxes b CROSS JOIN kd p WHERE p.x BETWEEN b.x AND b.x + size AND p.y BETWEEN b.y AND b.y + size;
.print R*Tree
SELECT count(*), sum(p.id) FROM boxes b CROSS JOIN rtree p WHERE p.x1 BETWEEN b.x AND b.x + size AND p.y1 BETWEEN b.y AND b.y + size;
.timer off

.print rows that only one of them has, whatever the rectangle
CREATE TABLE by_quad AS SELECT b.rowid AS box, p.rowid AS id FROM boxes b CROSS JOIN quad p WHERE p.x BETWEEN b.x AND b.x + size AND p.y BETWEEN b.y AND b.y + size;
CREATE TABLE by_kd AS SELECT b.rowid AS box, p.rowid AS id FROM boxes b CROSS JOIN kd p WHERE p.x BETWEEN b.x AND b.x + size AND p.y BETWEEN b.y AND b.y + size;
CREATE TABLE by_rtree AS SELECT b.rowid AS box, p.id FROM boxes b CROSS JOIN rtree p WHERE p.x1 BETWEEN b.x AND b.x + size AND p.y1 BETWEEN b.y AND b.y + size;
SELECT count(*) FROM (SELECT * FROM by_quad EXCEPT SELECT * FROM by_rtree);
SELECT count(*) FROM (SELECT * FROM by_rtree EXCEPT SELECT * FROM by_quad);
SELECT count(*) FROM (SELECT * FROM by_kd EXCEPT SELECT * FROM by_rtree);
SELECT count(*) FROM (SELECT * FROM by_rtree EXCEPT SELECT * FROM by_kd);
