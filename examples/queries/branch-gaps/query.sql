-- sqlite3 -csv :memory: '.read query.sql' <log.csv
CREATE TABLE log (repo TEXT, action TEXT, user TEXT, second INTEGER);
.import --csv --skip 1 /dev/stdin log

-- Deletions and creations are a partition of their own, so that all repositories have a row.
SELECT repo, '[' || coalesce(group_concat(gap, ' '), '') || ']', coalesce(min(gap), 'none')
FROM (
  SELECT repo,
    iif(action = 'branch' AND lag(action) OVER earlier = 'unbranch',
      second - lag(second) OVER earlier, NULL) AS gap
  FROM log
  WINDOW earlier AS (PARTITION BY repo, action IN ('branch', 'unbranch') ORDER BY rowid)
  ORDER BY repo, rowid
)
GROUP BY repo;
