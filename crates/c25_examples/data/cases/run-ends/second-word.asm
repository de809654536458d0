        LALK    1
        BACC
