-- The interest of a day's tickets, and whether their lines agree with their totals. Run:
-- sqlite3 -readonly -cmd ".parameter set :day 20120206" day-copy.db < samples/audit/interest_by_ticket.sql
.mode column
.headers on
SELECT t.ticket, t.payee, count(*) AS bonds,
       printf('%d.%02d', sum(p.cents) / 100, sum(p.cents) % 100) AS paid,
       printf('%d.%02d', sum(b.denom * 50) / 100, sum(b.denom * 50) % 100) AS price,
       printf('%d.%02d', sum(p.cents - b.denom * 50) / 100, sum(p.cents - b.denom * 50) % 100) AS interest,
       CASE WHEN sum(p.cents) = t.total AND count(*) = t.bonds THEN 'yes' ELSE 'NO' END AS agree
  FROM tickets AS t JOIN paid AS p ON p.ticket = t.ticket JOIN bonds AS b ON b.letter = p.letter AND b.number = p.number
 WHERE CAST(strftime('%Y%m%d', t.day * 86400, 'unixepoch') AS INTEGER) = :day GROUP BY t.ticket ORDER BY t.ticket;
