-- A database is backed up, restored under another name, and one of its backups is forgotten
CLUSTER a
CREATE DATABASE shop
TICK 1000
CREATE TABLE shop.users (id INT, name STRING, PRIMARY KEY (id))
CREATE TABLE shop.orders (id INT, user_id INT, PRIMARY KEY (id), REFERENCES shop.users)
UPSERT INTO shop.users VALUES (1, 'Ann'), (2, 'Bo')
UPSERT INTO shop.orders VALUES (10, 1), (11, 2)
BACKUP DATABASE shop INTO 'nightly'
-- a day later a row goes and others come; what comes after the time of the second backup isn't in it
TICK 2000
DELETE FROM shop.orders KEY (11)
UPSERT INTO shop.users VALUES (2, 'Bob'), (3, 'Cy')
BACKUP DATABASE shop INTO 'nightly' AS OF SYSTEM TIME '2000.0000000001'
UPSERT INTO shop.orders VALUES (12, 3)
SHOW BACKUPS IN 'nightly'
-- new tables under new ids; the new orders reference the new users
RESTORE DATABASE shop FROM LATEST IN 'nightly' WITH new_db_name = 'shop2'
SELECT * FROM shop.users
SELECT * FROM shop2.users
SELECT * FROM shop2.orders
RESTORE DATABASE shop FROM 'a/1000.0000000005' IN 'nightly' WITH new_db_name = 'shop1'
SELECT * FROM shop1.orders
-- a name that is there, a time inside a backup, and one that isn't after the last backup
RESTORE DATABASE shop FROM LATEST IN 'nightly' WITH new_db_name = 'shop1'
RESTORE DATABASE shop FROM LATEST IN 'nightly' AS OF SYSTEM TIME '1500.0000000000' WITH new_db_name = 'shop3'
BACKUP DATABASE shop INTO 'nightly' AS OF SYSTEM TIME '1500.0000000000'
BACKUP TABLE shop.users, shop.orders INTO 'weekly'
-- only the layer of the second backup goes
FORGET BACKUP FROM LATEST IN 'nightly' LAYER '0.0000000000' TO '2000.0000000001'
SHOW BACKUPS IN 'nightly'
FORGET BACKUP FROM LATEST IN 'nightly' LAYER '0.0000000000' TO '2000.0000000001'
