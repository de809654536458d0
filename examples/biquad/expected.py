"""What biquad.asm writes, by its difference equation. Prints it; with the word `samples`, prints samples.txt.

The coefficients come from the bilinear transform of the Butterworth filter, in Q14, rounded. Each y(n) is the exact
sum of five products, rounded to Q15 once and held between -1 and 1; no instruction is looked at.
"""
import math
import sys


def exact_coefficients():
    k = math.tan(math.pi * 500 / 8000)
    scale = 1 + math.sqrt(2) * k + k * k
    b = k * k / scale
    return b, 2 * b, b, 2 * (1 - k * k) / scale, -(1 - math.sqrt(2) * k + k * k) / scale


def samples():
    """A square wave of 250 Hz at half of full scale, the same at full scale, and a step from -1 to 1 that stays."""
    half = [0x4000 if n // 16 % 2 == 0 else -0x4000 for n in range(64)]
    full = [0x7FFF if n // 16 % 2 == 0 else -0x8000 for n in range(64)]
    return half + full + [0x7FFF] * 32


def section(x, coefficients, last):
    """The difference equation; `last` makes y(n) of the sum."""
    b0, b1, b2, a1, a2 = coefficients
    x, y = [0, 0] + x, [0, 0]
    for n in range(2, len(x)):
        y.append(last(b0 * x[n] + b1 * x[n - 1] + b2 * x[n - 2] + a1 * y[n - 1] + a2 * y[n - 2]))
    return y[2:]


def held(value):
    return min(max(value, -0x8000), 0x7FFF)


def filtered(x):
    y = section(x, [round(c * 16384) for c in exact_coefficients()], lambda total: held((total + 0x2000) >> 14))
    ideal = section(x, exact_coefficients(), held)
    assert all(abs(v - w) < 60 for v, w in zip(y, ideal))       # about 0.002 of full scale
    # Both limits are met at full scale, and after the step y comes to rest.
    assert min(y[64:]) == -0x8000 and max(y[64:]) == 0x7FFF and max(map(abs, y[:64])) < 0x6000
    assert all(abs(v - 0x7FFF) < 100 for v in y[-8:])
    return y


if __name__ == "__main__":
    if sys.argv[1:] == ["samples"]:
        print("".join("0 %04X\n" % (x & 0xFFFF) for x in samples()), end="")
    else:
        print("".join("1 %04X\n" % (y & 0xFFFF) for y in filtered(samples())) + "ran 4200")
