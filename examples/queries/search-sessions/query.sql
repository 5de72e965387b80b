-- sqlite3 -csv :memory: '.read query.sql' <log.csv
CREATE TABLE log (second INTEGER, user TEXT, area TEXT, answered TEXT);
.import --csv --skip 1 /dev/stdin log

WITH marked AS (
  SELECT rowid AS n, user,
    coalesce(second - lag(second) OVER (PARTITION BY user ORDER BY rowid) > 1800, 0) AS begins
  FROM log
), numbered AS (
  SELECT user, sum(begins) OVER (PARTITION BY user ORDER BY n) AS session
  FROM marked
), sessions AS (
  SELECT user, count(*) AS searches,
    session = max(session) OVER (PARTITION BY user) AS is_open
  FROM numbered
  GROUP BY user, session
  ORDER BY user, session
)
SELECT user, '[' || coalesce(group_concat(searches, ' ') FILTER (WHERE NOT is_open), '') || ']',
  max(searches) FILTER (WHERE is_open)
FROM sessions
GROUP BY user;
