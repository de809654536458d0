sections {
 .text : > ROM }
