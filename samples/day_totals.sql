-- What every day paid, from its tickets and their lines, beside the batch that settled it. Run: sqlite3 day.db < samples/day_totals.sql
.mode column
.headers on
SELECT date(t.day * 86400, 'unixepoch') AS day,
       count(*) AS tickets,
       sum(t.bonds) AS bonds,
       printf('%d.%02d', sum(t.total) / 100, sum(t.total) % 100) AS total,
       (SELECT printf('%d.%02d', sum(p.cents) / 100, sum(p.cents) % 100)
          FROM paid AS p JOIN tickets AS u ON u.ticket = p.ticket WHERE u.day = t.day) AS of_lines,
       coalesce((SELECT printf('%d bonds on %d tickets, %d.%02d', b.bonds, b.tickets, b.total / 100, b.total % 100)
          FROM batches AS b WHERE b.day = t.day), 'open') AS batch
  FROM tickets AS t GROUP BY t.day ORDER BY t.day;
