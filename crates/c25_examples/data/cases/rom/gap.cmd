SECTIONS { .text : > 0
           three : > 3 }
