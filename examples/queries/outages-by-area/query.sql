-- sqlite3 -csv :memory: '.read query.sql' <log.csv
CREATE TABLE log (second INTEGER, user TEXT, area TEXT, answered TEXT);
.import --csv --skip 1 /dev/stdin log

-- Answered searches are a partition of their own, so that all areas have a row.
SELECT area, '[' || coalesce(group_concat(gap, ' '), '') || ']', coalesce(max(gap), 'none')
FROM (
  SELECT area,
    iif(answered = 'yes' AND second - lag(second) OVER earlier >= 120,
      second - lag(second) OVER earlier, NULL) AS gap
  FROM log
  WINDOW earlier AS (PARTITION BY area, answered ORDER BY rowid)
  ORDER BY area, rowid
)
GROUP BY area;
