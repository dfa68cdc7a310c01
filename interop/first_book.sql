-- The tables and plans of a book of schema number 1, kept by debian/radacctd.toml's plans.
CREATE TABLE meta (name TEXT NOT NULL PRIMARY KEY, value INTEGER NOT NULL) STRICT;
CREATE TABLE price_plan (class BLOB NOT NULL PRIMARY KEY, block INTEGER NOT NULL,
  unit INTEGER NOT NULL) STRICT;
CREATE TABLE account (name BLOB NOT NULL PRIMARY KEY, balance INTEGER NOT NULL) STRICT;
CREATE TABLE voucher (number TEXT NOT NULL PRIMARY KEY, account BLOB NOT NULL,
  amount INTEGER NOT NULL, moment INTEGER NOT NULL) STRICT;
CREATE TABLE session (client TEXT NOT NULL, id BLOB NOT NULL, account BLOB NOT NULL,
  class BLOB NOT NULL, input INTEGER NOT NULL, output INTEGER NOT NULL, seconds INTEGER NOT NULL,
  first_seen INTEGER NOT NULL, last_seen INTEGER NOT NULL, state INTEGER NOT NULL,
  cause INTEGER NOT NULL, calling BLOB NOT NULL, framed BLOB NOT NULL,
  PRIMARY KEY (client, id)) STRICT;
CREATE INDEX session_account ON session (account);
CREATE INDEX voucher_account ON voucher (account);
INSERT INTO meta VALUES ('schema', 1);
INSERT INTO price_plan VALUES (CAST('gold' AS BLOB), 1048576, 10),
  (CAST('default' AS BLOB), 1000000, 5);
-- A session of each of two plans, of which the second names a class that no plan has, and a voucher.
INSERT INTO account VALUES (CAST('room 12' AS BLOB), 280), (CAST('room 14' AS BLOB), -10);
INSERT INTO voucher VALUES ('V-9', CAST('room 12' AS BLOB), 300, 1700000000);
INSERT INTO session VALUES ('nas-7', CAST('6B-1' AS BLOB), CAST('room 12' AS BLOB),
  CAST('gold' AS BLOB), 1048577, 0, 60, 1700000000, 1700000060, 0, 0, CAST('' AS BLOB),
  x'0a000007');
INSERT INTO session VALUES ('nas-7', CAST('6B-2' AS BLOB), CAST('room 14' AS BLOB),
  CAST('silver' AS BLOB), 400000, 600001, 0, 1700000001, 1700000001, 1, 0, CAST('' AS BLOB),
  CAST('' AS BLOB));
