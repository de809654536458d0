X .usect "v"
