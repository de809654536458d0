 .string "a""",""""
