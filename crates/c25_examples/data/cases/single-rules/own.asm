        B       MORE
MORE    NOP
END     B       END
