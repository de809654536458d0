* Reads a port that has one sample.
        IN      60h,PA0
        IN      61h,PA0
