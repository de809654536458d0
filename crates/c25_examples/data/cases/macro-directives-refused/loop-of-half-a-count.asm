 .loop (
