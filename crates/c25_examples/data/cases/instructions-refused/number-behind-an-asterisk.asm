 LAC *3
