        .space  1048560
