M .macro @
