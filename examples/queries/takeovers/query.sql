-- sqlite3 -csv :memory: '.read query.sql' <log.csv
CREATE TABLE log (second INTEGER, advertiser TEXT, campaign TEXT, country TEXT);
.import --csv --skip 1 /dev/stdin log

WITH marked AS (
  SELECT rowid AS n, *, lag(campaign) OVER (PARTITION BY advertiser ORDER BY rowid) AS before
  FROM log
), turns AS (
  SELECT advertiser, campaign,
    lead(second) OVER (PARTITION BY advertiser ORDER BY n) - second AS ran
  FROM marked
  WHERE campaign IS NOT before
  ORDER BY advertiser, n
)
SELECT advertiser, '[' || group_concat(campaign, ' ') || ']',
  '[' || coalesce(group_concat(ran, ' '), '') || ']', coalesce(max(ran), 'none')
FROM turns
GROUP BY advertiser;
