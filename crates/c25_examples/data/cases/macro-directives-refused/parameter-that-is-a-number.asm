M .macro A,1
