X LAC X-4 ; no such place
