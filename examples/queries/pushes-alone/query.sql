-- sqlite3 -csv :memory: '.read query.sql' <log.csv
CREATE TABLE log (repo TEXT, action TEXT, user TEXT, second INTEGER);
.import --csv --skip 1 /dev/stdin log

SELECT repo, iif(sum(action <> 'push') = 0, 'yes', 'no')
FROM log
GROUP BY repo;
