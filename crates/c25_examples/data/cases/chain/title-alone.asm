 .title "t"
