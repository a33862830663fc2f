SELECT COUNT(*) FROM t WHERE a < b AND a <= b AND a <> b;
SELECT COUNT(*) FROM t WHERE (a > b OR a < b) AND (a >= b OR a <> b);
SELECT COUNT(*) FROM t WHERE a < b AND (a > b OR a = b);
SELECT COUNT(*) FROM t WHERE (a = b OR a >= b OR a > b);
SELECT COUNT(*) FROM t WHERE (a + 2 = b OR b + 4294967295 < 7);
SELECT COUNT(*) FROM t WHERE (a + 4294967295 > 4294967295);
