 .sect
