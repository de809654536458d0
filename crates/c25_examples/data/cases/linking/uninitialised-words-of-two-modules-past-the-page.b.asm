X .usect "v",65536
