-- Every owner's unpaid bonds, as many as there are of every denomination and issue month. Run: sqlite3 -readonly day-copy.db < samples/audit/unpaid_by_owner.sql
.mode column
.headers on
SELECT owner,
       denom,
       printf('%04d-%02d', 2005 + (issued + 4) / 12, (issued + 4) % 12 + 1) AS issued,
       count(*) AS bonds,
       printf('%d.%02d', sum(denom * 50) / 100, sum(denom * 50) % 100) AS price,
       min(char(64 + letter) || number || 'EE') AS one_of_them
  FROM bonds WHERE ticket IS NULL GROUP BY owner, denom, bonds.issued ORDER BY owner, bonds.issued, denom;
