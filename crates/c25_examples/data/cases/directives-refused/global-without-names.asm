 .global
