SECTIONS { .text : coefs : > PROG run = 0FF00h }
