X .usect "v",(
