X .usect "room",N
