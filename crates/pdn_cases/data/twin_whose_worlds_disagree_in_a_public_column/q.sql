SELECT pid FROM diag;
