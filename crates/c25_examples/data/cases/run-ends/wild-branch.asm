        LALK    300h
        BACC
