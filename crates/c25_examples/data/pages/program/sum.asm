        LDPK    6
NEXT    IN      300h,PA0
        IN      301h,PA1
        LAC     300h
        ADD     301h
        SACL    302h
        OUT     302h,PA15
        B       NEXT
