 .sect ".bss"
 .bss X,(
