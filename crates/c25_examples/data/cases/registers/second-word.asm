        B       TABLE+1
TABLE   LALK    1234h
