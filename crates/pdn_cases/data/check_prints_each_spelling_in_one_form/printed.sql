SELECT DISTINCT a.x AS z, groups FROM t AS a JOIN abcdefghijklmn_9 ON (a.x <> groups OR a.x + 7 >= 3) AND k < 'z' LIMIT 9;
WITH a AS (SELECT ROW_NUMBER() OVER (ORDER BY x DESC, y) AS n FROM t), b AS (SELECT n FROM a) SELECT n FROM b WHERE n > 1;
SELECT x, COUNT(*) AS n FROM t GROUP BY x, t.y HAVING COUNT(*) >= 3 ORDER BY x, n DESC;