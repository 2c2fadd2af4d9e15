-- The interest of every payee and year: what the lines paid, less the issue prices of their bonds. Run: sqlite3 -readonly day-copy.db < samples/audit/interest_by_payee_and_year.sql
-- A second table compares every year's sums with its batches and the open day. The column `agree` says `yes` or `NO`.
.mode column
.headers on
CREATE TEMP VIEW lines AS
SELECT t.payee, strftime('%Y', t.day * 86400, 'unixepoch') AS year, p.cents AS paid, b.denom * 50 AS price
  FROM paid AS p JOIN tickets AS t ON t.ticket = p.ticket JOIN bonds AS b ON b.letter = p.letter AND b.number = p.number;
SELECT payee, year, count(*) AS bonds,
       printf('%d.%02d', sum(paid) / 100, sum(paid) % 100) AS paid,
       printf('%d.%02d', sum(price) / 100, sum(price) % 100) AS price,
       printf('%d.%02d', sum(paid - price) / 100, sum(paid - price) % 100) AS interest
  FROM lines GROUP BY lines.payee, lines.year ORDER BY lines.payee, lines.year;
.print
WITH settled AS (SELECT strftime('%Y', day * 86400, 'unixepoch') AS year, sum(total) AS total
                   FROM (SELECT day, total FROM batches UNION ALL SELECT day, total FROM tickets WHERE day = (SELECT day FROM desk)) GROUP BY 1),
     sums AS (SELECT year, count(*) AS bonds, sum(paid) AS paid, sum(price) AS price FROM lines GROUP BY year)
SELECT s.year, coalesce(l.bonds, 0) AS bonds,
       printf('%d.%02d', coalesce(l.paid, 0) / 100, coalesce(l.paid, 0) % 100) AS paid,
       printf('%d.%02d', coalesce(l.price, 0) / 100, coalesce(l.price, 0) % 100) AS price,
       printf('%d.%02d', coalesce(l.paid - l.price, 0) / 100, coalesce(l.paid - l.price, 0) % 100) AS interest,
       printf('%d.%02d', s.total / 100, s.total % 100) AS settled,
       CASE WHEN coalesce(l.paid, 0) = s.total THEN 'yes' ELSE 'NO' END AS agree
  FROM settled AS s LEFT JOIN sums AS l ON l.year = s.year ORDER BY s.year;
