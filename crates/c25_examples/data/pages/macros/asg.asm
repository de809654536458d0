        .asg    "60h,4",WHERE
        .asg    LAC,LOAD
        LOAD    WHERE
        .asg    5,N
        .eval   N*N,SQUARE
        .word   N,SQUARE
        .string "N is :N:"
X:N:    .word   X:N:
        .eval   N+1,N
        .word   N
