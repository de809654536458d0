* The step that would repeat a branch changes nothing, and is tried again.
        RPTK    0
        B       0
