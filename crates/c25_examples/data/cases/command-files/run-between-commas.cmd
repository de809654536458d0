SECTIONS { fast : load = 40h , RUN = 0xff00 , .text : , }
