-- sqlite3 -csv :memory: '.read query.sql' <log.csv
CREATE TABLE log (second INTEGER, advertiser TEXT, campaign TEXT, country TEXT);
.import --csv --skip 1 /dev/stdin log

SELECT advertiser, count(*)
FROM log
GROUP BY advertiser;
