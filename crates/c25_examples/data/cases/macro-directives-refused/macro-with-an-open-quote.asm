M .macro 'a
