* One interrupt more than the filter takes samples, as it writes the weights.
        .copy   "../../programs/lms/lms.asm"
