WAIT    BIOZ    LOW             ; steps 0, 2, 4, ..
        B       WAIT
LOW     OUT     60h,PA7
        IDLE
