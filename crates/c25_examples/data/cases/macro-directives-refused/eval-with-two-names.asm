 .eval 1,A,B
