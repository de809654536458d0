 .eval *,A
