* Nothing.
