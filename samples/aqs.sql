-- The samples of airdv.sqlite with calendar days and the names of AQS.
-- Ozone is in ppm, PM2.5 and PM10 are in ug/m3, and hours are local standard time.
SELECT printf('%02d', id / 10000000000000000) AS "State Code",
  printf('%03d', id / 10000000000000 % 1000) AS "County Code",
  printf('%04d', id / 1000000000 % 10000) AS "Site Num",
  CASE id / 100000000 % 10 WHEN 1 THEN 44201 WHEN 2 THEN 88101 ELSE 81102 END AS "Parameter Code",
  id / 1000000 % 100 AS "POC",
  date('1990-01-01', (id % 1000000) || ' hours') AS "Date Local",
  strftime('%H:%M', '1990-01-01', (id % 1000000) || ' hours') AS "Time Local",
  CASE id / 100000000 % 10 WHEN 1 THEN value / 1000.0 ELSE value / 10.0 END AS "Sample Measurement",
  CASE WHEN method IS NOT NULL THEN printf('%03d', method) END AS "Method Code",
  nullcode AS "Null Data Code",
  quals AS "Qualifiers"
FROM observations3 ORDER BY id;
