 LACK "A"
