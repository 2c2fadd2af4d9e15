-- The kept requests that name a day, or whose text is no JSON, and their replies. Run: sqlite3 -readonly -cmd ".parameter set :day 20120206" day-copy.db < samples/audit/replies_of_a_day.sql
-- A text that isn't printable ASCII is shown in hexadecimal digits, so that it can't write on the terminal.
.mode list
.separator " "
.headers off
SELECT desk, number, iif(act GLOB '*[^ -~]*', quote(CAST(act AS BLOB)), act), iif(reply GLOB '*[^ -~]*', quote(CAST(reply AS BLOB)), reply)
  FROM answers WHERE CASE WHEN json_valid(act) THEN CAST(replace(json_extract(act, '$.day'), '-', '') AS INTEGER) = :day ELSE 1 END ORDER BY desk, number;
