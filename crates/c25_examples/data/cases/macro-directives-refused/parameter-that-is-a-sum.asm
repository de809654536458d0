M .macro A+B
