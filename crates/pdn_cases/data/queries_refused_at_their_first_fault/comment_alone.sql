 
-- nothing