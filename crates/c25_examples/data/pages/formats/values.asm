        .def    START,MINUS,TOP,V
MINUS   .set    -1
        .space  64
START   B       START
TOP     .set    $
        .bss    V,1
