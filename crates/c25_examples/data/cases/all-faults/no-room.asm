        FOO
        .space  1048592         ; 65,537 words: nothing is read after 54
        BAR
