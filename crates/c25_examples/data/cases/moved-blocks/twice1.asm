        .copy   "table.inc"
