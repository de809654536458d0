 .usect "v",@
