        LALK    TABLE
        ADDK    1               ; entry 1 (wrong: each has two words)
        BACC
TABLE   B       ZERO
        B       ONE
ZERO    OUT     60h,PA0
        IDLE
ONE     OUT     60h,PA1
        IDLE
