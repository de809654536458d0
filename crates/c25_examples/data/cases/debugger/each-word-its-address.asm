* The last words of program memory, each with its own address.
        .sect   "high"
        .word   0FFF6h,0FFF7h,0FFF8h,0FFF9h,0FFFAh
        .word   0FFFBh,0FFFCh,0FFFDh,0FFFEh,0FFFFh
