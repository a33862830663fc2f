SELECT a.id, b.id AS other FROM p a JOIN p b ON a.c < b.c;
SELECT a.id, b.id AS other FROM p a JOIN p b ON a.c >= b.c;
SELECT a.id, b.id AS other FROM p a JOIN p b ON a.c = b.c;
SELECT a.id, b.id AS other FROM p a JOIN p b ON a.c <> b.c;
SELECT a.id, b.id AS other FROM p a JOIN p b ON a.c > b.c;
SELECT a.id, b.id AS other FROM p a JOIN p b ON a.c <= b.c;
