1M .macro 12G
