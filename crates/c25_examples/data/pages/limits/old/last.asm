LIMIT   EQU     15 -1 IS THE LAST
        DATA    LIMIT
        END
