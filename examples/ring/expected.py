"""What ring.asm writes, by a queue. Prints it; with the argument `samples`, prints samples.txt.

The requests of schedule.txt are served in their order: INT0 puts the next sample into a queue of at most 8, or loses
it, and INT1 takes the oldest one out, or none. They are so far apart that each is served before the next comes; of two
at one time INT0 is the first, and the main program goes on after both. No instruction is read.
"""
import collections
import itertools
import sys

SIZE = 8


def schedule():
    with open("schedule.txt") as file:
        for time, group in itertools.groupby((line.split() for line in file), lambda words: int(words[0])):
            yield time, [name for _, name in group]


def samples():
    """As many as there are requests, numbered, so that a lost one is seen."""
    count = sum(names.count("INT0") for _, names in schedule())
    return [0x0101 * (n + 1) for n in range(count)]


def outputs():
    source, queue, most = iter(samples()), collections.deque(), 0
    for _, names in schedule():
        for name in names:
            if name == "INT0":
                sample = next(source)
                if len(queue) < SIZE:
                    queue.append(sample)
            elif queue:
                yield 1, queue.popleft()
        if len(queue) > most:
            most = len(queue)
            yield 2, most


if __name__ == "__main__":
    times = [time for time, _ in schedule()]
    assert all(b - a >= 60 for a, b in zip(times, times[1:]))
    if sys.argv[1:] == ["samples"]:
        print("".join("0 %04X\n" % x for x in samples()), end="")
    else:
        print("".join("%d %04X\n" % y for y in outputs()) + "ran 2000")
