 .label X+1
