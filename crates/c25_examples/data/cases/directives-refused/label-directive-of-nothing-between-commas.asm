 .label ,
