* Ends behind its third instruction.
        ZAC
        LACK    2
        LACK    3
