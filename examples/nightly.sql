-- A shop is backed up in full on Monday night and by an increment every night after it, each with all that was changed.
CLUSTER a
CREATE DATABASE shop
TICK 1000
CREATE TABLE shop.users (id INT, name STRING, PRIMARY KEY (id))
CREATE TABLE shop.orders (id INT, user_id INT, item STRING, PRIMARY KEY (id), REFERENCES shop.users)
UPSERT INTO shop.users VALUES (1, 'Ann'), (2, 'Bo')
UPSERT INTO shop.orders VALUES (10, 1, 'tea'), (11, 2, 'rice')
BACKUP DATABASE shop INTO 'nightly' WITH revision_history
-- Tuesday
TICK 2000
UPSERT INTO shop.orders VALUES (12, 1, 'milk')
BACKUP INTO LATEST IN 'nightly' WITH revision_history
-- Wednesday: an order is changed, and orders get a column
TICK 3000
UPSERT INTO shop.orders VALUES (11, 2, 'bread')
ALTER TABLE shop.orders ADD COLUMN paid BOOL
BACKUP INTO LATEST IN 'nightly' WITH revision_history
-- Thursday
TICK 4000
UPSERT INTO shop.users VALUES (3, 'Cy')
UPSERT INTO shop.orders VALUES (10, 1, 'tea', TRUE), (13, 3, 'salt', FALSE)
BACKUP INTO LATEST IN 'nightly' WITH revision_history
-- Friday: an order comes, and then one DELETE takes far more than it should
TICK 5000
UPSERT INTO shop.orders VALUES (14, 2, 'figs', TRUE)
TICK 5500
DELETE RANGE FROM shop.orders BETWEEN (11) AND (99)
BACKUP INTO LATEST IN 'nightly' WITH revision_history
-- Saturday: nobody has noticed
TICK 6000
UPSERT INTO shop.orders VALUES (15, 1, 'oil', FALSE)
BACKUP INTO LATEST IN 'nightly' WITH revision_history
-- Sunday
TICK 7000
SELECT * FROM shop.orders
BACKUP INTO LATEST IN 'nightly' WITH revision_history
-- the moment before the DELETE lies between two nights; the layers up to Friday's have what it needs
RESTORE DATABASE shop FROM LATEST IN 'nightly' AS OF SYSTEM TIME '5500.0000000000' WITH new_db_name = 'rescued'
SELECT * FROM rescued.orders
-- a time on Wednesday before the column was added
RESTORE DATABASE shop FROM LATEST IN 'nightly' AS OF SYSTEM TIME '3000.0000000001' WITH new_db_name = 'wednesday'
SELECT * FROM wednesday.orders
-- the end of the week is what is there now; nothing covers a time after it
RESTORE DATABASE shop FROM LATEST IN 'nightly' WITH new_db_name = 'sunday'
SELECT * FROM sunday.orders
RESTORE DATABASE shop FROM LATEST IN 'nightly' AS OF SYSTEM TIME '8000.0000000000' WITH new_db_name = 'monday'
-- without Wednesday's layer no chain leads past Tuesday's end
FORGET BACKUP FROM LATEST IN 'nightly' LAYER '2000.0000000002' TO '3000.0000000003'
RESTORE DATABASE shop FROM LATEST IN 'nightly' AS OF SYSTEM TIME '5500.0000000000' WITH new_db_name = 'again'
RESTORE DATABASE shop FROM LATEST IN 'nightly' AS OF SYSTEM TIME '2000.0000000002' WITH new_db_name = 'tuesday'
SELECT * FROM tuesday.orders
