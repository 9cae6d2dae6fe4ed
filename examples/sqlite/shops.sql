-- Shops by their places, in an SP-GiST index.
CREATE VIRTUAL TABLE shops USING spgist(quad);
CREATE TABLE names(id INTEGER PRIMARY KEY, name TEXT);
INSERT INTO names VALUES (1, 'baker'), (2, 'smith'), (3, 'chandler'), (4, 'cooper');
INSERT INTO shops(rowid, x, y) VALUES (1, 120, 40), (2, -300, 75), (3, 150, 60), (4, 120, -90);

.print within the rectangle
SELECT name, x, y FROM shops JOIN names ON id = shops.rowid WHERE x BETWEEN 0 AND 200 AND y BETWEEN 0 AND 100;
.print east of a fraction, up to a whole number
SELECT rowid FROM shops WHERE x > 119.5 AND x <= 120;
.print none lies between two whole numbers, nor beyond what a coordinate can be
SELECT count(*) FROM shops WHERE x = 119.5 OR y > 9e18 OR x < NULL;
SELECT count(*) FROM shops WHERE x < 'a text' AND y > -9e18;

.print the index answers both bounds
EXPLAIN QUERY PLAN SELECT rowid FROM shops WHERE x BETWEEN 0 AND 200 AND y >= 0;

.print a shop moves, one closes, one opens where a rowid was
UPDATE shops SET x = 10, y = 10 WHERE rowid = 2;
DELETE FROM shops WHERE rowid = 1;
INSERT INTO shops(rowid, x, y) VALUES (1, 11, 12);
INSERT INTO shops(x, y) VALUES (5, 5);
SELECT rowid, x, y FROM shops ORDER BY rowid;

.print what was rolled back is gone
BEGIN;
DELETE FROM shops WHERE x < 100;
SELECT count(*) FROM shops;
ROLLBACK;
SELECT count(*) FROM shops;
SAVEPOINT one;
INSERT INTO shops(rowid, x, y) VALUES (9, 1, 1);
ROLLBACK TO one;
RELEASE one;
SELECT count(*) FROM shops WHERE rowid = 9;

.print a rowid that is there is replaced only where that is asked for
INSERT OR IGNORE INTO shops(rowid, x, y) VALUES (3, 7, 7);
INSERT OR REPLACE INTO shops(rowid, x, y) VALUES (4, 8, 8);
SELECT rowid, x, y FROM shops WHERE rowid IN (3, 4);

.print another name, and the other class of points
ALTER TABLE shops RENAME TO stores;
CREATE VIRTUAL TABLE others USING spgist(kd);
INSERT INTO others(rowid, x, y) SELECT rowid, x, y FROM stores;
SELECT count(*) FROM (SELECT rowid, x, y FROM stores EXCEPT SELECT rowid, x, y FROM others);
SELECT group_concat(rowid) FROM others WHERE x <= 11 AND y <= 12;
DROP TABLE others;
DROP TABLE stores;
SELECT count(*) FROM sqlite_schema WHERE name LIKE '%points';
