 .text 1
