-- sqlite3 -csv :memory: '.read query.sql' <log.csv
CREATE TABLE log (second INTEGER, user TEXT, tag TEXT, reported TEXT);
.import --csv --skip 1 /dev/stdin log

WITH reports AS (
  SELECT rowid AS n, user,
    second - lag(second, 2) OVER (PARTITION BY user ORDER BY rowid) AS span
  FROM log
  WHERE reported = 'yes'
), caught AS (
  SELECT user, min(n) AS third
  FROM reports
  WHERE span <= 3600
  GROUP BY user
)
SELECT log.user, iif(third IS NULL, 'no', 'yes'), count(*) FILTER (WHERE log.rowid > third)
FROM log LEFT JOIN caught ON log.user = caught.user
GROUP BY log.user;
