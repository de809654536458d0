* Half of sixteen, added with reversed carry, gives the order of a transform of sixteen points, and 0 again.
        LARK    AR0,8
        LARP    AR1
NEXT    SAR     AR1,60h
        OUT     60h,PA0
        MAR     *BR0+
        B       NEXT
