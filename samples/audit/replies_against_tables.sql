-- Kept replies of tickets and batches that aren't what the tables say, and tickets and batches that no reply tells. Run: sqlite3 -readonly day-copy.db < samples/audit/replies_against_tables.sql
-- It prints nothing where all agree.
-- A text that isn't printable ASCII is shown in hexadecimal digits, so that it can't write on the terminal.
.mode list
.separator " "
.headers off
WITH told AS (SELECT reply FROM answers WHERE CASE WHEN json_valid(reply) THEN coalesce(json_extract(reply, '$.ticket'), json_extract(reply, '$.tickets')) IS NOT NULL AND json_extract(reply, '$.refused') IS NULL ELSE 1 END),
     held AS (SELECT json_object('day', date(t.day * 86400, 'unixepoch'),
                                 'lines', (SELECT json_group_array(json_object('paid', l.paid, 'serial', l.serial))
                                             FROM (SELECT printf('%d.%02d', p.cents / 100, p.cents % 100) AS paid, char(64 + p.letter) || p.number || 'EE' AS serial
                                                     FROM paid AS p WHERE p.ticket = t.ticket ORDER BY p.place) AS l),
                                 'payee', t.payee, 'ticket', t.ticket, 'total', printf('%d.%02d', t.total / 100, t.total % 100)) AS reply
                FROM tickets AS t
              UNION ALL SELECT json_object('bonds', bonds, 'day', date(day * 86400, 'unixepoch'), 'tickets', tickets, 'total', printf('%d.%02d', total / 100, total % 100)) FROM batches)
SELECT 'told alone', iif(reply GLOB '*[^ -~]*', quote(CAST(reply AS BLOB)), reply) FROM told WHERE reply NOT IN (SELECT reply FROM held)
UNION ALL SELECT 'held alone', reply FROM held WHERE reply NOT IN (SELECT reply FROM told);
