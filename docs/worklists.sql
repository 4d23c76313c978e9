-- The worklists of an office, each with a heading: sqlite3 office.db < docs/worklists.sql   (SQLite 3.38 or later)
-- While a desk has the file: oe-list office.db --backup copy.db, and then of copy.db.
-- A case's row is one text with commas; the view gives names to its fields. View and table are temporary: nothing is added to the file.
.headers on
.mode column
CREATE TEMP TABLE studies (number INTEGER PRIMARY KEY, study TEXT);
INSERT INTO studies
    SELECT CAST(substr(v, instr(v, char(10) || 'case,') + 6) AS INTEGER), replace(k, ' ', '.') FROM kept WHERE t = 4 AND instr(v, char(10) || 'case,');
CREATE TEMP VIEW cases AS
    SELECT number, study, f ->> 0 AS start, f ->> 3 AS urgency, f ->> 13 AS received, f ->> 14 AS form_came, f ->> 15 AS ended,
           f ->> 16 AS decision, f ->> 18 AS issued, f ->> 19 AS deadline, f ->> 21 AS petition
    FROM studies JOIN (SELECT CAST(k AS INTEGER) AS filed, '["' || replace(v, ',', '","') || '"]' AS f FROM main.kept WHERE t = 3) ON filed = number;

SELECT v AS "the desk's day" FROM kept WHERE t = 2 AND k = 'now';

SELECT number AS "awaiting a determination", study, received, start AS "work starts"
FROM cases WHERE decision = '-' AND ended = '-' ORDER BY start, number;

SELECT number AS "petition open", study, decision, issued
FROM cases WHERE petition = 'pending' AND ended = '-' ORDER BY number;

SELECT number AS "form due", study, received, date(received, '+5 days') AS due
FROM cases WHERE urgency = 'emergency' AND form_came = '-' AND ended = '-' ORDER BY received, number;

SELECT number AS "petitions until", deadline, study, decision
FROM cases WHERE deadline >= (SELECT v FROM main.kept WHERE t = 2 AND k = 'now') AND ended = '-' ORDER BY deadline, number;
