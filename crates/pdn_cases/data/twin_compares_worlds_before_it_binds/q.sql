SELECT pid FROM diag ORDER BY day;
