-- sqlite3 -csv :memory: '.read query.sql' <log.csv
CREATE TABLE log (second INTEGER, user TEXT, area TEXT, answered TEXT);
.import --csv --skip 1 /dev/stdin log

SELECT '[' || coalesce(group_concat(gap, ' '), '') || ']', coalesce(max(gap), 'none')
FROM (
  SELECT second - lag(second) OVER (ORDER BY rowid) AS gap
  FROM log
  WHERE answered = 'yes'
  ORDER BY rowid
)
WHERE gap >= 120;
