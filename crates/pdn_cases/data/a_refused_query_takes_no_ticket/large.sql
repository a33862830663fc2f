SELECT a.k FROM p a JOIN q b ON a.v = b.v;
