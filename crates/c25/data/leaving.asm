* Gives each of two samples of port 2 out at port 1, and then runs beyond its code.
        IN      60h,PA2
        OUT     60h,PA1
        IN      60h,PA2
        OUT     60h,PA1
