"""What mulaw.asm writes, by the decision values of G.711. Prints it; with the word `samples`, prints samples.txt; with
`wav`, writes samples.wav, of which examples/tools/signals.py makes the same samples.

Each byte stands for the sizes between two decision values, and for one value among them; a sample's byte is found by
going through these intervals. No bit is looked at but those of the byte itself.
"""
import math
import struct
import sys
import wave

COUNT = 24


def intervals():
    """For the byte of each positive value: its first size, the size after its last one, and the value, in 14 bits."""
    first = 0
    for segment in range(8):
        width = 2 << segment
        for step in range(16):
            last = first + (width if (segment, step) != (0, 0) else width - 1)
            value = (first + last) // 2 if (segment, step) != (0, 0) else 0
            yield 0xFF - 16 * segment - step, first, last, value
            first = last


def companded(sample):
    size = min(abs(sample >> 2), 8158)
    (code, value), = [(code, value) for code, first, last, value in intervals() if first <= size < last]
    return (code if sample >= 0 else code - 0x80, 4 * (value if sample >= 0 else -value))


def samples():
    """The corners, and a tone of 700 Hz at 8,000 samples a second that grows."""
    corners = [0, 3, 4, -1, -4, 32767, -32768, 32636]
    return corners + [round(math.sin(2 * math.pi * n * 700 / 8000) * 20 * 2 ** (n * 10.5 / 16)) for n in range(COUNT - 8)]


if __name__ == "__main__":
    assert [last for *_, last, _ in intervals()][-1] == 8159
    if sys.argv[1:] == ["samples"]:
        print("".join("0 %04X\n" % (x & 0xFFFF) for x in samples()), end="")
    elif sys.argv[1:] == ["wav"]:
        with wave.open("samples.wav", "wb") as file:
            file.setparams((1, 2, 8000, COUNT, "NONE", ""))
            file.writeframes(struct.pack("<%dh" % COUNT, *samples()))
    else:
        for x in samples():
            code, value = companded(x)
            assert abs(value - x) <= max(8, abs(x) / 16) or abs(x) > 32632
            print("1 %04X\n2 %04X" % (code, value & 0xFFFF))
        print("ran 1400")
