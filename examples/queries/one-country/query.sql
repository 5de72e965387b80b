-- sqlite3 -csv :memory: '.read query.sql' <log.csv
CREATE TABLE log (second INTEGER, advertiser TEXT, campaign TEXT, country TEXT);
.import --csv --skip 1 /dev/stdin log

-- With `min` alone SQLite takes the other columns from the record that has the least.
SELECT advertiser, alone, country
FROM (
  SELECT advertiser, iif(count(DISTINCT country) = 1, 'yes', 'no') AS alone, country, min(rowid)
  FROM log
  GROUP BY advertiser
);
