-- A table whose schema changes, whose rows go, and which is read as it was
CLUSTER a
CREATE DATABASE shop
TICK 1000
CREATE TABLE shop.items (id INT, name STRING, PRIMARY KEY (id))
UPSERT INTO shop.items VALUES (1, 'tea'), (2, 'jam'), (3, 'oat bar'), (4, 'salt')
ALTER TABLE shop.items ADD COLUMN price INT
UPSERT INTO shop.items VALUES (1, 'tea', 250)
ALTER TABLE shop.items RENAME COLUMN name TO title
ALTER TABLE shop.items DROP COLUMN price
ALTER TABLE shop.items ADD COLUMN price INT
SELECT * FROM shop.items
SELECT * FROM shop.items AS OF SYSTEM TIME '1000.0000000004'
-- one key, and a range up to, not including, its end
TICK 2000
DELETE FROM shop.items KEY (2)
DELETE RANGE FROM shop.items BETWEEN (3) AND (4)
UPSERT INTO shop.items VALUES (5, 'rye', 310)
SELECT * FROM shop.items
ALTER TABLE shop.items RENAME TO goods
SELECT * FROM shop.items
SELECT * FROM shop.items AS OF SYSTEM TIME '1000.0000000002'
-- what was before the threshold can't be read any more
GC shop.goods BEFORE '2000.0000000001'
SELECT * FROM shop.items AS OF SYSTEM TIME '1000.0000000002'
SELECT * FROM shop.items AS OF SYSTEM TIME '2000.0000000001'
-- a name that is free again
DROP TABLE shop.goods
CREATE TABLE shop.goods (day INT, id INT, PRIMARY KEY (day DESC, id))
UPSERT INTO shop.goods VALUES (1, 7), (2, 9), (2, 8)
SELECT * FROM shop.goods
SELECT * FROM shop.goods AS OF SYSTEM TIME '2000.0000000004'
