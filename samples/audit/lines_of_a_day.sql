-- The lines of a day's tickets, to be added up by add_up.awk. Run:
-- sqlite3 -readonly -cmd ".parameter set :day 20120206" day-copy.db < samples/audit/lines_of_a_day.sql | awk -f samples/audit/add_up.awk
.mode list
.separator " "
.headers off
SELECT p.ticket, char(64 + p.letter) || p.number || 'EE', printf('%d.%02d', p.cents / 100, p.cents % 100)
  FROM paid AS p JOIN tickets AS t ON t.ticket = p.ticket WHERE CAST(strftime('%Y%m%d', t.day * 86400, 'unixepoch') AS INTEGER) = :day ORDER BY p.ticket, p.place;
SELECT 'batch', tickets, bonds, printf('%d.%02d', total / 100, total % 100)
  FROM batches WHERE CAST(strftime('%Y%m%d', day * 86400, 'unixepoch') AS INTEGER) = :day;
