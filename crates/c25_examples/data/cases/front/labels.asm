START   LACK    SCALE
        B       START
