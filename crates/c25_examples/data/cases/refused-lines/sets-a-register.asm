AR1 .set 1
