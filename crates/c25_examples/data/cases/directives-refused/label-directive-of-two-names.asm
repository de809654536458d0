 .label X,Y
