WITH d AS (
  SELECT pid, day, ROW_NUMBER() OVER (PARTITION BY pid ORDER BY day) AS r FROM diag WHERE code = 'cdiff'
)
SELECT DISTINCT a.pid FROM d a JOIN d b ON a.pid = b.pid AND b.r = a.r + 1
WHERE b.day >= a.day + 15 AND b.day <= a.day + 56 ORDER BY pid;
SELECT code, COUNT(*) AS n FROM diag GROUP BY code HAVING COUNT(*) >= 3 ORDER BY n DESC;
