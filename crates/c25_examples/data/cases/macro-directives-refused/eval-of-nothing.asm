 .eval ,A
