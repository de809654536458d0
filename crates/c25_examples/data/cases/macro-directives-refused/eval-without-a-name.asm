 .eval 1
