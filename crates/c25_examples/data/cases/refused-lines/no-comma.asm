 LAC *+ AR1
