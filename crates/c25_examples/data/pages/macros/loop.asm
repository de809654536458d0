        .asg    1,k
        .loop
S:k:    .word   k*k
        .eval   k+1,k
        .break  k*k > 20
        .endloop
