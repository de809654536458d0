        FOO
        .endif                  ; ends nothing
        BAR
