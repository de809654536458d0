        .title  "Filter"
        .width  132
        .mnolist
L       .page
        NOP
