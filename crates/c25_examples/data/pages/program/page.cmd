SECTIONS { first: > 200h PAGE 1 second: > 300h PAGE 1 }
