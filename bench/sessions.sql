-- What sessions.symple reports, for SQLite, over the table log(ts INTEGER, user TEXT) with the
-- records in order: the range of no number is tested. A record after a pause begins a session.
.separator " | "
.print user | sessions | open | longest
WITH marked AS (
  SELECT rowid AS no, user,
    ts - lag(ts, 1, 0) OVER (PARTITION BY user ORDER BY rowid) > 30 AS begins
  FROM log
), numbered AS (
  SELECT no, user, sum(begins) OVER (PARTITION BY user ORDER BY no) AS session
  FROM marked
), lengths AS (
  SELECT user, session, count(*) AS length, min(no) AS first,
    max(session) OVER (PARTITION BY user) AS last
  FROM numbered
  GROUP BY user, session
)
SELECT user, last, max(length) FILTER (WHERE session = last),
  CASE last
    WHEN 0 THEN 'none'
    ELSE coalesce(max(length) FILTER (WHERE session < last), 0)
  END
FROM lengths
GROUP BY user
ORDER BY min(first);
.print --
