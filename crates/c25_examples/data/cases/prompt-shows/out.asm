        B       20h
