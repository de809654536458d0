X .label X
