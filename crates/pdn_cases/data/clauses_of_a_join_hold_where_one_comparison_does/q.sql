SELECT a.id, b.id AS other FROM p a JOIN p b ON (a.x < b.x OR a.c = b.c) AND (a.x + 2 = b.x OR a.x <= 4);
SELECT a.id, b.id AS other FROM p a JOIN p b ON a.x + 4294967295 <= b.x + 4294967290 AND (a.x <> b.x);
SELECT a.id, b.id AS other FROM p a JOIN p b ON (a.x >= b.x OR a.x > 100 OR a.c <> b.c) AND a.x = b.x + 2;
