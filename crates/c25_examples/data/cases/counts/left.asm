        LACK    1
        OUT     60h,PA0
