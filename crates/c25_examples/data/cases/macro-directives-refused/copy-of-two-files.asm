 .copy "A","B"
