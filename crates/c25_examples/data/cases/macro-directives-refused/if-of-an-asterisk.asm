 .if *
