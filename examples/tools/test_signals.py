#!/usr/bin/env python3
"""Tests of signals.py, in both directions and of what it refuses: python3 examples/tools/test_signals.py

Recordings are spelled here byte by byte, as the format RIFF WAVE has them, so that no reader or writer of them is needed.
"""
import os
import struct
import subprocess
import sys
import tempfile
import unittest

SCRIPT = os.path.join(os.path.dirname(os.path.abspath(__file__)), "signals.py")


def recording(data, bits=16, channels=1, rate=8000, kind=1):
    """A recording; kind 1 is PCM, 3 is floating point."""
    frame = channels * bits // 8
    form = struct.pack("<4sIHHIIHH", b"fmt ", 16, kind, channels, rate, rate * frame, frame, bits)
    held = b"WAVE" + form + struct.pack("<4sI", b"data", len(data)) + data
    return struct.pack("<4sI", b"RIFF", len(held)) + held


WORDS = (0, 1, -1, 32767, -32768)
BYTES = struct.pack("<5h", *WORDS)
SAMPLES = "0 0000\n0 0001\n0 FFFF\n0 7FFF\n0 8000\n"


class Signals(unittest.TestCase):
    def setUp(self):
        self.held = tempfile.TemporaryDirectory()
        self.addCleanup(self.held.cleanup)

    def call(self, *words, given=b"", **files):
        """The script's status, output and errors. `a_wav=` is the file a.wav in the folder where it runs."""
        for name, data in files.items():
            with open(os.path.join(self.held.name, name.replace("_", ".")), "wb") as file:
                file.write(data)
        ran = subprocess.run([sys.executable, SCRIPT] + list(words), cwd=self.held.name, input=given, capture_output=True)
        return ran.returncode, ran.stdout, ran.stderr.decode()

    def gives(self, text, *words, **files):
        self.assertEqual(self.call(*words, **files), (0, text.encode() if isinstance(text, str) else text, ""))

    def refuses(self, text, *words, **files):
        self.assertEqual(self.call(*words, **files), (1, b"", "signals.py: %s\n" % text))

    def refuses_words(self, text, *words):
        status, printed, errors = self.call(*words)
        self.assertEqual((status, printed), (2, b""))
        self.assertTrue(errors.endswith(text + "\n"), errors)

    # Samples

    def test_recording_of_16_bits(self):
        self.gives(SAMPLES, "samples", "a.wav", a_wav=recording(BYTES))

    def test_recording_of_8_bits_has_no_sign(self):
        self.gives("3 8000\n3 FF00\n3 0000\n3 7F00\n", "samples", "a.wav", "--port", "3",
                   a_wav=recording(bytes((0, 127, 128, 255)), bits=8))

    def test_one_channel_of_two(self):
        both = recording(struct.pack("<4h", 1, -1, 2, -2), channels=2)
        self.gives("0 0001\n0 0002\n", "samples", "a.wav", "--channel", "0", a_wav=both)
        self.gives("0 FFFF\n0 FFFE\n", "samples", "a.wav", "--channel", "1", a_wav=both)
        self.gives("0 0000\n", "samples", "a.wav", "--channel", "1", a_wav=recording(bytes((1, 128)), bits=8, channels=2))

    def test_stereo_without_a_channel(self):
        self.refuses("a.wav has 2 channels: name one of them, --channel 0 to --channel 1", "samples", "a.wav",
                     a_wav=recording(BYTES[:8], channels=2))

    def test_channel_that_is_not_there(self):
        self.refuses("a.wav has no channel 1: its last one is --channel 0", "samples", "a.wav", "--channel", "1",
                     a_wav=recording(BYTES))

    def test_other_recordings(self):
        self.refuses("a.wav has 24 bits a sample; recordings of 8 and of 16 bits can be read", "samples", "a.wav",
                     a_wav=recording(bytes(6), bits=24))
        self.refuses("a.wav is no recording that can be read: unknown format: 3", "samples", "a.wav",
                     a_wav=recording(bytes(8), bits=32, kind=3))
        self.refuses("a.wav is no recording that can be read: file does not start with RIFF id", "samples", "a.wav",
                     a_wav=bytes(50))
        self.refuses("a.wav is no recording that can be read: it is cut off", "samples", "a.wav", a_wav=b"")
        self.refuses("a.wav is cut off: it has 3 of 5 samples", "samples", "a.wav", a_wav=recording(BYTES)[:-3])

    def test_words_low_byte_first(self):
        self.gives(SAMPLES, "samples", "a.raw", a_raw=BYTES)
        self.gives(SAMPLES, "samples", "-", given=BYTES)
        self.refuses("a.raw has 9 bytes, which are no whole words of 16 bits", "samples", "a.raw", a_raw=BYTES[:9])

    def test_whole_numbers_of_a_table(self):
        self.gives("0 0001\n0 FFFF\n0 8000\n0 FFFF\n", "samples", "a.csv", a_csv=b"n\r\n1\r\n-1\r\n-32768\r\n65535\r\n")
        self.gives("0 0001\n", "samples", "a.csv", a_csv="\ufeff1\n".encode())
        for text in ("65536", "-32769", "0.5", "nan", "inf"):
            self.refuses("a.csv, line 2: %s is not a whole number from -32768 to 65535 (see --fractions)" % text,
                         "samples", "a.csv", a_csv=b"x\n%s\n" % text.encode())

    def test_fractions_of_a_table(self):
        self.gives("0 0000\n0 4000\n0 7FFF\n0 8000\n0 C000\n", "samples", "a.csv", "--column", "2", "--fractions",
                   a_csv=b"second,x\n0,0\n1,0.5\n2,1\n3,-1\n4, -5e-1\n")
        self.refuses("a.csv, line 1: 1.01 is not a fraction from -1 to 1", "samples", "a.csv", "--fractions", a_csv=b"1.01\n")

    def test_tables_without_numbers(self):
        self.refuses("a.csv has no number in column 2", "samples", "a.csv", "--column", "2", a_csv=b"1\n2\n")
        self.refuses("a.csv is no text in UTF-8 (byte 2)", "samples", "a.csv", a_csv=b"1\n\xff")

    def test_no_file(self):
        self.refuses("[Errno 2] No such file or directory: 'a.wav'", "samples", "a.wav")

    # Outputs

    OUTPUTS = b"1 0000\n1 0001\n2 8000\n1 FFFF\nran 50\n"

    def test_table_of_outputs(self):
        self.gives("second,port 1,port 2\n0.000000,0,-32768\n0.000125,1,\n0.000250,-1,\n", "csv", "-", given=self.OUTPUTS)
        self.gives("second,port 1\n0.000000,0\n0.500000,1\n1.000000,65535\n", "csv", "-", "--port", "1", "--rate", "2",
                   "--unsigned", given=self.OUTPUTS)

    def test_picture_of_outputs(self):
        self.gives("$port1 << EOD\n0.000000 0\n0.000125 1\n0.000250 -1\nEOD\n$port2 << EOD\n0.000000 -32768\nEOD\n"
                   "set xlabel 'seconds'\nset grid\nset key outside top center horizontal\nplot $port1 using 1:2 with steps title 'port 1', "
                   "$port2 using 1:2 with steps title 'port 2'\n", "gnuplot", "-", given=self.OUTPUTS)

    def test_recording_of_outputs(self):
        self.gives(recording(struct.pack("<3h", 0, 1, -1)), "wav", "-", "-", "--port", "1", given=self.OUTPUTS)
        self.gives(recording(BYTES, rate=44100), "wav", "-", "-", "--rate", "44100", given=SAMPLES.encode() + b"ran 9\n")
        self.refuses("- has outputs at the ports 1, 2: name one of them, --port 1", "wav", "-", "-", given=self.OUTPUTS)

    def test_no_outputs(self):
        for task in (("csv", "-"), ("gnuplot", "-"), ("wav", "-", "-")):
            self.refuses("- has no outputs", *task, given=b"ran 1000\n")
            self.refuses("- has no output at port 3", *task, "--port", "3", given=self.OUTPUTS)

    # There and back

    def test_recording_there_and_back(self):
        held = recording(struct.pack("<400h", *(n * 163 - 32600 for n in range(400))))
        _, samples, _ = self.call("samples", "a.wav", a_wav=held)
        self.gives("", "wav", "outputs", "b.wav", outputs=samples)
        with open(os.path.join(self.held.name, "b.wav"), "rb") as file:
            self.assertEqual(file.read(), held)

    def test_table_there_and_back(self):
        self.gives("second,port 0\n" + "".join("%.6f,%d\n" % (n / 8000, w) for n, w in enumerate(WORDS)), "csv", "-",
                   given=SAMPLES.encode())
        _, table, _ = self.call("csv", "-", given=SAMPLES.encode())
        self.gives(SAMPLES, "samples", "a.csv", "--column", "2", a_csv=table)

    # Words

    def test_words_out_of_range(self):
        self.refuses_words("argument --port: 16 is above 15", "samples", "a.wav", "--port", "16")
        self.refuses_words("argument --column: 0 is below 1", "samples", "a.csv", "--column", "0")
        self.refuses_words("argument --rate: 0 is below 1", "csv", "-", "--rate", "0")


if __name__ == "__main__":
    unittest.main()
