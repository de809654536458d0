        .asg    "third",WHICH
        .copy   "first.inc"
        .copy   "second.inc"
        .copy   ":WHICH:.inc"
