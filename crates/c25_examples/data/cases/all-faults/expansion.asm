* Lines that expansion refuses, and what is left out with them: no FOO is reached.
        .if     UNKNOWN         ; its lines are passed over
        FOO
        .else
        FOO
        .endif
        .elseif 1               ; in no .if
        .endif                  ; ends nothing
        .loop   1/0             ; its lines are passed over
        FOO
        .loop   2
        .endloop
        FOO
        .endloop
        .endloop                ; ends nothing
ADD     .macro                  ; its lines are passed over
        FOO
        .endm
        .endm   1
        .loop
        .break  UNKNOWN         ; leaves the loop
        FOO
        .endloop
        .if     0
        FOO
        .elseif                 ; passed over from here on
        FOO
        .else
        FOO
        .endif
        .if     1
        NOP
        .else   1               ; passed over from here on
        FOO
        .endif  2               ; ends the .if
M       .macro  n
        .eval   n+,X            ; each call reports it
        LACK    n
        .endm
        M       1
        M       256
HERE    .mexit                  ; its label is defined
        .copy
        .asg    1
        .if     HERE            ; HERE is no number: 23
        FOO
        .endif
        LARK    5
        .if     1               ; left open
