* The register that is named becomes the current one, and ARB keeps the one that was.
        LARP    AR2
        MAR     *,AR5
