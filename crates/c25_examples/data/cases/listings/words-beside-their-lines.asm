        LACK 65
        SACL 60h
        OUT 60h,PA1
S       B S
