X .usect .text,(
