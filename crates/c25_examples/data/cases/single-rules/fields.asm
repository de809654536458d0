TOP     .set    0FFFFh
        .bss    SUM,1
        .text
        RHM
        STXM
        SPM     2
        LDPK    300
END     B       END
