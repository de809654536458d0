 .string
