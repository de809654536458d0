"""What float.asm writes, by Python's exact products and math.frexp. With `samples`, prints samples.txt.

A product of two words has at most 31 bits, so it is a float without rounding; frexp gives its mantissa between 0.5 and
1. A negative mantissa is normal from -1 to below -0.5, so that of a negative power of two is -1, with one less in the
exponent. The mantissa is cut to 15 bits after the point, downwards.
"""
import math
import sys

PAIRS = ((3, 5), (1, 1), (-1, 1), (-1, -1), (0, 1234), (32767, 32767), (-32768, -32768), (-32768, 32767), (12345, -678),
         (255, 257))


def normal(product):
    mantissa, exponent = math.frexp(product)
    if mantissa == -0.5:
        mantissa, exponent = -1.0, exponent - 1
    value = mantissa * 2.0 ** exponent
    assert value == product
    return math.floor(mantissa * 32768), exponent


if __name__ == "__main__":
    if sys.argv[1:] == ["samples"]:
        print("".join("0 %04X\n1 %04X\n" % (a & 0xFFFF, b & 0xFFFF) for a, b in PAIRS), end="")
    else:
        for a, b in PAIRS:
            mantissa, exponent = normal(a * b)
            print("2 %04X\n3 %04X" % (mantissa & 0xFFFF, exponent & 0xFFFF))
        print("ran 700")
