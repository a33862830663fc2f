SELECT code FROM diag;
