* Writes 41h to port 1, and then branches to itself.
        LACK    65              ; the constant
        SACL    60h             ; to data memory
        OUT     60h,PA1         ; and from there to the port
STOP    B       STOP
