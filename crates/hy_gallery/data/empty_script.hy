-- The least script: no tables and no sessions. Its text has an empty order and the end.

END;
