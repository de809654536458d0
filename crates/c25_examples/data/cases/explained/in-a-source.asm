* The second word is none.
 LACK 5
 LACK 256
