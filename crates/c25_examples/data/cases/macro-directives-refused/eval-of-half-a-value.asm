 .eval 1+,A
