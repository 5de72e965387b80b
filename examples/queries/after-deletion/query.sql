-- sqlite3 -csv :memory: '.read query.sql' <log.csv
CREATE TABLE log (repo TEXT, action TEXT, user TEXT, second INTEGER);
.import --csv --skip 1 /dev/stdin log

-- Of each record the last deletion and the last creation before it.
SELECT repo, coalesce(sum(action <> 'create' AND deleted > coalesce(created, 0)), 0)
FROM (
  SELECT repo, action,
    max(rowid) FILTER (WHERE action = 'delete') OVER earlier AS deleted,
    max(rowid) FILTER (WHERE action = 'create') OVER earlier AS created
  FROM log
  WINDOW earlier AS (PARTITION BY repo ORDER BY rowid
    ROWS BETWEEN UNBOUNDED PRECEDING AND 1 PRECEDING)
)
GROUP BY repo;
