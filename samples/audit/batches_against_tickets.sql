-- Every day's batch, and what its tickets and their lines add up to. Run: sqlite3 -readonly day-copy.db < samples/audit/batches_against_tickets.sql
-- The column `agree` says `yes`, `open` for the day that has no batch yet, or `NO`.
.mode column
.headers on
WITH days AS (SELECT day FROM batches UNION SELECT day FROM tickets UNION SELECT day FROM desk WHERE day IS NOT NULL),
     of_tickets AS (SELECT day, count(*) AS tickets, sum(bonds) AS bonds, sum(total) AS total FROM tickets GROUP BY day),
     of_lines AS (SELECT t.day, count(*) AS bonds, sum(p.cents) AS total FROM paid AS p JOIN tickets AS t ON t.ticket = p.ticket GROUP BY t.day),
     sums AS (SELECT d.day, coalesce(t.tickets, 0) AS tickets, coalesce(t.bonds, 0) AS bonds, coalesce(t.total, 0) AS total, coalesce(l.bonds, 0) AS lines, coalesce(l.total, 0) AS of_lines,
                     b.day AS batch, b.tickets AS batch_tickets, b.bonds AS batch_bonds, b.total AS batch_total
                FROM days AS d LEFT JOIN of_tickets AS t ON t.day = d.day LEFT JOIN of_lines AS l ON l.day = d.day LEFT JOIN batches AS b ON b.day = d.day)
SELECT date(day * 86400, 'unixepoch') AS day,
       tickets,
       bonds,
       printf('%d.%02d', total / 100, total % 100) AS total,
       printf('%d.%02d', of_lines / 100, of_lines % 100) AS of_lines,
       CASE WHEN batch IS NULL THEN '' ELSE printf('%d.%02d', batch_total / 100, batch_total % 100) END AS batch,
       CASE WHEN lines <> bonds OR of_lines <> total THEN 'NO'
            WHEN batch IS NULL THEN CASE WHEN day = (SELECT day FROM desk) THEN 'open' ELSE 'NO' END
            WHEN batch_tickets = tickets AND batch_bonds = bonds AND batch_total = total THEN 'yes'
            ELSE 'NO' END AS agree
  FROM sums ORDER BY sums.day;
