-- The tables and plans of a book, as `radacctd init` makes them of debian/radacctd.toml's plans.
CREATE TABLE meta (name TEXT NOT NULL PRIMARY KEY, value INTEGER NOT NULL) STRICT;
CREATE TABLE price_plan (class BLOB NOT NULL PRIMARY KEY, block INTEGER NOT NULL,
  unit INTEGER NOT NULL) STRICT;
CREATE TABLE account (name BLOB NOT NULL PRIMARY KEY, balance INTEGER NOT NULL) STRICT;
CREATE TABLE voucher (number TEXT NOT NULL PRIMARY KEY, account BLOB NOT NULL,
  amount INTEGER NOT NULL, moment INTEGER NOT NULL) STRICT;
CREATE TABLE session (client TEXT NOT NULL, id BLOB NOT NULL, account BLOB NOT NULL,
  class BLOB NOT NULL, input INTEGER NOT NULL, output INTEGER NOT NULL, seconds INTEGER NOT NULL,
  first_seen INTEGER NOT NULL, last_seen INTEGER NOT NULL, state INTEGER NOT NULL,
  cause INTEGER NOT NULL, calling BLOB NOT NULL, framed BLOB NOT NULL,
  PRIMARY KEY (client, id)) STRICT;
CREATE INDEX session_account ON session (account);
CREATE INDEX voucher_account ON voucher (account);
CREATE TABLE plan_count (class BLOB NOT NULL PRIMARY KEY, mode INTEGER NOT NULL) STRICT;
CREATE TABLE session_plan (client TEXT NOT NULL, id BLOB NOT NULL, plan_class BLOB NOT NULL,
  PRIMARY KEY (client, id)) STRICT;
INSERT INTO meta VALUES ('schema', 3);
INSERT INTO price_plan VALUES (CAST('gold' AS BLOB), 1048576, 10),
  (CAST('default' AS BLOB), 1000000, 5);
INSERT INTO plan_count VALUES (CAST('gold' AS BLOB), 0), (CAST('default' AS BLOB), 0);
