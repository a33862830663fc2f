SELECT a.y FROM wide a JOIN wide b ON a.x = b.x;
