        LACK    SCALE
SCALE   .set    4
