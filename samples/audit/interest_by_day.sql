-- The interest that was paid on every day, with its batch. Run: sqlite3 -readonly day-copy.db < samples/audit/interest_by_day.sql
-- The column `agree` says `yes`, `open` for the day that has no batch yet, or `NO`.
.mode column
.headers on
WITH days AS (SELECT day FROM batches UNION SELECT day FROM tickets UNION SELECT day FROM desk WHERE day IS NOT NULL),
     lines AS (SELECT t.day, count(*) AS bonds, sum(p.cents) AS paid, sum(b.denom * 50) AS price
                 FROM paid AS p JOIN tickets AS t ON t.ticket = p.ticket JOIN bonds AS b ON b.letter = p.letter AND b.number = p.number GROUP BY t.day),
     sums AS (SELECT d.day, coalesce(l.bonds, 0) AS bonds, coalesce(l.paid, 0) AS paid, coalesce(l.price, 0) AS price, b.bonds AS batch_bonds, b.total AS batch
                FROM days AS d LEFT JOIN lines AS l ON l.day = d.day LEFT JOIN batches AS b ON b.day = d.day)
SELECT date(day * 86400, 'unixepoch') AS day, bonds,
       printf('%d.%02d', paid / 100, paid % 100) AS paid,
       printf('%d.%02d', price / 100, price % 100) AS price,
       printf('%d.%02d', (paid - price) / 100, (paid - price) % 100) AS interest,
       CASE WHEN batch IS NULL THEN '' ELSE printf('%d.%02d', batch / 100, batch % 100) END AS batch,
       CASE WHEN batch IS NULL THEN CASE WHEN day = (SELECT day FROM desk) THEN 'open' ELSE 'NO' END
            WHEN batch = paid AND batch_bonds = bonds THEN 'yes'
            ELSE 'NO' END AS agree
  FROM sums ORDER BY sums.day;
