M .macro 12G
