-- sqlite3 -csv :memory: '.read query.sql' <log.csv
CREATE TABLE log (repo TEXT, action TEXT, user TEXT, second INTEGER);
.import --csv --skip 1 /dev/stdin log

-- Whether a request is open before each record; then the number of the last one that was opened.
WITH before AS (
  SELECT rowid AS n, repo, action,
    coalesce(max(rowid) FILTER (WHERE action = 'open') OVER earlier, 0)
      > coalesce(max(rowid) FILTER (WHERE action = 'close') OVER earlier, 0) AS is_open
  FROM log
  WINDOW earlier AS (PARTITION BY repo ORDER BY rowid
    ROWS BETWEEN UNBOUNDED PRECEDING AND 1 PRECEDING)
), numbered AS (
  SELECT repo, action, is_open,
    sum(action = 'open' AND NOT is_open) OVER (PARTITION BY repo ORDER BY n) AS request
  FROM before
), requests AS (
  SELECT repo, sum(is_open AND action <> 'close') AS events,
    sum(is_open AND action = 'close') AS closed
  FROM numbered
  GROUP BY repo, request
  ORDER BY repo, request
)
SELECT repo, '[' || coalesce(group_concat(events, ' ') FILTER (WHERE closed), '') || ']',
  coalesce(max(events) FILTER (WHERE closed), 'none')
FROM requests
GROUP BY repo;
