        LACK    1
        SACL    60h
        OUT     60h,PA0
