* Nine words are pushed, so the first is lost; the lowest stays behind each word that is popped.
        LARP    AR1
        LARK    AR1,8
        ZAC
MORE    ADDK    1
        PUSH
        BANZ    MORE,*-
        LARK    AR1,8
BACK    POP
        SACL    60h
        OUT     60h,PA0
        BANZ    BACK,*-
