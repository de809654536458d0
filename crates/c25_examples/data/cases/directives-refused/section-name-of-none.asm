 .sect ""
