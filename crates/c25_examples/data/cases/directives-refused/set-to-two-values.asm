X .set 1,2
