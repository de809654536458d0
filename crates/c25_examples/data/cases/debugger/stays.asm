* Writes 41h to port 1, and then branches to itself.
        LACK    65
        SACL    60h
        OUT     60h,PA1
STOP    B       STOP
