-- All payments by payee and day, bond by bond. Run: sqlite3 -readonly day-copy.db < samples/audit/payments_by_payee_and_day.sql
.mode column
.headers on
SELECT t.payee,
       date(t.day * 86400, 'unixepoch') AS day,
       p.ticket,
       p.place,
       char(64 + p.letter) || p.number || 'EE' AS serial,
       b.denom,
       printf('%04d-%02d', 2005 + (b.issued + 4) / 12, (b.issued + 4) % 12 + 1) AS issued,
       printf('%d.%02d', p.cents / 100, p.cents % 100) AS paid,
       CASE WHEN b.owner = t.payee THEN 'owner' WHEN b.coowner = t.payee THEN 'coowner' ELSE 'NEITHER' END AS paid_as
  FROM paid AS p JOIN tickets AS t ON t.ticket = p.ticket LEFT JOIN bonds AS b ON b.letter = p.letter AND b.number = p.number
 ORDER BY t.payee, t.day, p.ticket, p.place;
