-- The next free request number of every desk that sent any, and how many replies it has. Run: sqlite3 -readonly day-copy.db < samples/audit/next_numbers.sql
-- Every number above the last one is free. If there are fewer replies than numbers, some below it are free too.
.mode column
.headers on
SELECT desk, count(*) AS replies, max(number) AS last, max(number) + 1 AS next
  FROM answers GROUP BY desk ORDER BY desk;
