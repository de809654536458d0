GAIN    .set    2
NOP
        LACK    SCALE
