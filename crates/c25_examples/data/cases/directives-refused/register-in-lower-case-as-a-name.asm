ar1 .set 5
