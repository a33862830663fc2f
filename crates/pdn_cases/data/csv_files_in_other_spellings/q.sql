SELECT c FROM t;
SELECT code FROM diag;
