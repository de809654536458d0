/* where everything goes */
SECTIONS { .text : > ROM }
