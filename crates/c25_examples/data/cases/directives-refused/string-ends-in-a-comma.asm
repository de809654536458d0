 .string "a",
