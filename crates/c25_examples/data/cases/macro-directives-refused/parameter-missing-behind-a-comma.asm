M .macro A,
