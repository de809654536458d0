"""What pi.asm writes, by the controller's equations. Prints it; `samples` prints samples.txt, `schedule` schedule.txt.

The controller is in fixed point, with limits where pi.asm promises them; no instruction is looked at. The speeds are
those of a motor with a load, which turns as the controller's torques drive it: so the samples close the loop.
"""
import sys

PERIODS, MAX = 60, 0x7FFFFFFF
KP, KI = round(0.9 * 32768), round(0.6 * 32768)


def wanted(n):
    return 0x3000 if n < 20 else 0x7000 if n < 40 else 0x1000


def load(n):
    return 0x0800 if n < 12 or n >= 50 else 0x1400


def limited(value):
    return min(max(value, 0), MAX)


def periods():
    """For each period the speed wanted, the speed measured and the torque."""
    integral = speed = 0
    for n in range(PERIODS):
        error = wanted(n) - speed
        integral = limited(integral + 2 * KI * error)           # Q31
        torque = limited(integral + 2 * KP * error) >> 16       # Q15
        yield wanted(n), speed, torque
        speed = max(speed + (torque - load(n) - speed) // 4, 0)


if __name__ == "__main__":
    rows = list(periods())
    assert all(abs(rows[n][0] - rows[n][1]) < 0x200 for n in (11, 19, 59))         # the speed comes to what is wanted,
    assert rows[39][2] == 0x7FFF and rows[40][2] == 0   # save 7000h, which is more than the motor can do under load
    if sys.argv[1:] == ["samples"]:
        print("".join("0 %04X\n1 %04X\n" % (r, w) for r, w, _ in rows), end="")
    elif sys.argv[1:] == ["schedule"]:
        print("".join("%d BIO0\n%d BIO1\n" % (40 * n + 40, 40 * n + 42) for n in range(PERIODS)), end="")
    else:
        print("".join("2 %04X\n" % u for _, _, u in rows) + "ran 2500")
