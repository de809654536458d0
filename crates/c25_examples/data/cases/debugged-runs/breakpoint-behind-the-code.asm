        NOP
        OUT     60h,PA0
