WITH i AS (SELECT a FROM t WHERE a = 1) SELECT i.a, t.a AS c FROM i JOIN t ON i.a = 1;
WITH i AS (SELECT a, a AS b FROM t) SELECT i.a, i.b, t.a AS c FROM i JOIN t ON i.a = 1;
WITH i AS (SELECT t.a, u.a AS b FROM t JOIN t u ON t.a = 1) SELECT i.a, i.b, t.a AS c FROM i JOIN t ON i.a = 1;
WITH i AS (SELECT a, COUNT(*) AS b FROM t GROUP BY a) SELECT i.a, i.b, t.a AS c FROM i JOIN t ON i.a = 1;
WITH i AS (SELECT COUNT(*) AS a FROM t) SELECT i.a, t.a AS c FROM i JOIN t ON i.a = 1;
WITH i AS (SELECT DISTINCT a FROM t) SELECT i.a, t.a AS c FROM i JOIN t ON i.a = 1;
WITH i AS (SELECT a, ROW_NUMBER() OVER (PARTITION BY a) AS b FROM t) SELECT i.a, i.b, t.a AS c FROM i JOIN t ON i.a = 1;
