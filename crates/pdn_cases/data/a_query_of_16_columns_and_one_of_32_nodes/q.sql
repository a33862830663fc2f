SELECT pid, pid, pid, pid, pid, pid, pid, pid, pid, pid, pid, pid, pid, pid, pid, pid FROM diag;
WITH a AS (SELECT DISTINCT pid FROM diag) SELECT p.pid, q.pid, r.pid, s.pid, u.pid, v.pid, w.pid, x.pid FROM a p JOIN a q ON q.pid = p.pid JOIN a r ON r.pid = p.pid JOIN a s ON s.pid = p.pid JOIN a u ON u.pid = p.pid JOIN a v ON v.pid = p.pid JOIN a w ON w.pid = p.pid JOIN a x ON x.pid = p.pid;
