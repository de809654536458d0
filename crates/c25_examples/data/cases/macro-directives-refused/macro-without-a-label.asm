 .macro 'x
