-- sqlite3 -csv :memory: '.read query.sql' <log.csv
CREATE TABLE log (second INTEGER, advertiser TEXT, campaign TEXT, country TEXT);
.import --csv --skip 1 /dev/stdin log

SELECT advertiser,
  '[' || coalesce(group_concat(gap, ' ') FILTER (WHERE gap > 3600), '') || ']',
  coalesce(max(gap) FILTER (WHERE gap > 3600), 'none')
FROM (
  SELECT advertiser, second - lag(second) OVER (PARTITION BY advertiser ORDER BY rowid) AS gap
  FROM log
  ORDER BY advertiser, rowid
)
GROUP BY advertiser;
