X .usect ".text",1
