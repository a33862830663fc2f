-- nothing
SELECT a FROM t; x