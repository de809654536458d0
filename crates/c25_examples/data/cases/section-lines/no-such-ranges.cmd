SECTIONS { .data : > TABLE
           .text : > ROM }
