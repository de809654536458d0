X .usect "v",65537
