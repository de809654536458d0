 .include *
