 .copy A
