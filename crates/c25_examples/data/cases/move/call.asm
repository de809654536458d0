START   B       START
        .struct
