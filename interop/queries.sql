-- Queries over a book of radacctd. Give them to a copy of a copy of the site:
--     sqlite3 -readonly /root/audited/book < queries.sql
-- Days and months are those of UTC. For another zone write 'unixepoch', 'localtime' in the place of
-- 'unixepoch', and set TZ. A session counts wholly in the month of its last report, and a line of
-- sessions that were carried forward in that of its last run. To leave lines out of a query over
-- `session`, add: client NOT LIKE '(%'

-- 1: usage by account and month
SELECT CAST(account AS TEXT), strftime('%Y-%m', last_seen, 'unixepoch') AS month,
       sum(input + output) FROM session GROUP BY 1, 2 ORDER BY 1, 2;
-- 2: open sessions
SELECT client, CAST(id AS TEXT), CAST(account AS TEXT), input + output FROM session
 WHERE state = 0 ORDER BY last_seen DESC;
-- 3: who used most
SELECT CAST(account AS TEXT), sum(input + output) FROM session
 GROUP BY 1 ORDER BY 2 DESC LIMIT 20;
-- 4: vouchers sold, by day
SELECT date(moment, 'unixepoch'), count(*), sum(amount) FROM voucher GROUP BY 1 ORDER BY 1;
-- 5: overdrawn accounts
SELECT CAST(name AS TEXT), balance FROM account WHERE balance < 0 ORDER BY balance;
-- 6: one voucher
SELECT CAST(account AS TEXT), amount, datetime(moment, 'unixepoch') FROM voucher
 WHERE number = 'V-1';
-- The price of each session, for queries 7 to 9. The file does not keep this view.
CREATE TEMP VIEW charge AS
WITH counted AS (
  SELECT s.*, plan_class, block, unit,
         CASE mode WHEN 0 THEN input + output WHEN 1 THEN input ELSE output END AS n
    FROM session s JOIN session_plan USING (client, id)
    JOIN price_plan p ON p.class = plan_class JOIN plan_count c ON c.class = plan_class)
SELECT client, id, account, class, plan_class, last_seen,
       (n / block + (n % block > 0)) * unit AS price FROM counted;
-- 7: the statement of the account al
SELECT datetime(moment, 'unixepoch'), number, amount FROM voucher
 WHERE account = CAST('al' AS BLOB)
UNION ALL
SELECT datetime(last_seen, 'unixepoch'), CAST(id AS TEXT), -price FROM charge
 WHERE account = CAST('al' AS BLOB) ORDER BY 1;
-- 8: accounts whose balance is not vouchers less charges; none in a sound book
SELECT CAST(name AS TEXT), balance,
       coalesce((SELECT sum(amount) FROM voucher WHERE account = name), 0)
       - coalesce((SELECT sum(price) FROM charge WHERE account = name), 0) AS expected
  FROM account WHERE balance <> expected;
-- 9: sessions of a class without a plan, priced by default
SELECT CAST(class AS TEXT), count(*), sum(price) FROM charge
 WHERE class <> plan_class GROUP BY 1;
-- 10: access servers, the silent ones first
SELECT client, count(*), sum(state = 0), datetime(max(last_seen), 'unixepoch')
  FROM session GROUP BY 1 ORDER BY 4;
-- 11: who had the address 10.0.0.7, in hex, at a moment
SELECT CAST(account AS TEXT), client, CAST(calling AS TEXT), datetime(last_seen, 'unixepoch')
  FROM session WHERE framed = x'0A000007'
   AND unixepoch('2026-11-02 00:00:00') BETWEEN first_seen AND last_seen;
