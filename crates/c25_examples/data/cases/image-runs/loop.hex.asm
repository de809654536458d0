 this is not what runs
