#!/usr/bin/env python3
"""Samples for `c25 run` from recordings and tables, and recordings, tables and pictures from its outputs.

    signals.py samples FILE [--port P] [--channel C] [--column C] [--fractions]
    signals.py csv|gnuplot OUTPUTS [--port P].. [--rate R] [--unsigned]
    signals.py wav OUTPUTS FILE [--port P] [--rate R]

samples   prints a line `P HHHH` for each sample of FILE: a .wav of 8 or 16 bits (the channel C, from 0, which has to be
          said where there are several), a .csv (the column C, from 1, which is 1 where it is not said; lines whose
          column is no number are passed over), or else words of 16 bits, low byte first. Numbers of a .csv are whole,
          -32,768 to 65,535, or with --fractions fractions from -1 to 1 in Q15, where 1 becomes 32,767.
csv       prints a table of the outputs at the ports P, each port a column: what `c25 run` printed is in OUTPUTS.
gnuplot   prints what gnuplot draws of them: signals.py gnuplot OUTPUTS | gnuplot -p
wav       writes the outputs at one port as a recording of 16 bits.

R is samples a second (8000). The port is 0 for samples where it is not said; for csv and gnuplot all that occur, and for
wav the one that occurs. `-` is standard input or, for FILE of wav, standard output. Python 3.8 or later, its standard
library alone.
"""
import argparse
import array
import csv
import io
import os
import re
import sys
import wave


def refuse(text):
    sys.exit("signals.py: " + text)


def bytes_of(name):
    if name == "-":
        return sys.stdin.buffer.read()
    with open(name, "rb") as file:
        return file.read()


def text_of(data, name):
    try:
        return data.decode("utf-8-sig")
    except UnicodeDecodeError as error:
        refuse("%s is no text in UTF-8 (byte %d)" % (name, error.start))


def swapped(words):
    """Words as this machine keeps them, from or to low byte first."""
    if sys.byteorder == "big":
        words.byteswap()
    return words


def words_of(data, name):
    """Words of 16 bits with their sign, low byte first."""
    if len(data) % 2 != 0:
        refuse("%s has %d bytes, which are no whole words of 16 bits" % (name, len(data)))
    return swapped(array.array("h", data))


def samples_of_wav(data, name, channel):
    try:
        with wave.open(io.BytesIO(data)) as file:
            width, count, length = file.getsampwidth(), file.getnchannels(), file.getnframes()
            frames = file.readframes(length)
    except (wave.Error, EOFError) as error:
        refuse("%s is no recording that can be read: %s" % (name, str(error) or "it is cut off"))
    if width not in (1, 2):
        refuse("%s has %d bits a sample; recordings of 8 and of 16 bits can be read" % (name, 8 * width))
    if len(frames) < length * width * count:
        refuse("%s is cut off: it has %d of %d samples" % (name, len(frames) // (width * count), length))
    if channel is None and count > 1:
        refuse("%s has %d channels: name one of them, --channel 0 to --channel %d" % (name, count, count - 1))
    if channel is not None and channel >= count:
        refuse("%s has no channel %d: its last one is --channel %d" % (name, channel, count - 1))
    # (samples of 8 bits have no sign: 128 is 0)
    words = words_of(frames, name) if width == 2 else [(byte - 128) * 256 for byte in frames]
    return words[channel or 0::count]


def samples_of_csv(data, name, column, fractions):
    found = []
    for number, row in enumerate(csv.reader(io.StringIO(text_of(data, name))), 1):
        try:
            value = float(row[column - 1])
        except (IndexError, ValueError):
            continue
        if fractions and -1 <= value <= 1:
            found.append(min(round(32768 * value), 32767))
        elif not fractions and -32768 <= value <= 65535 and value == int(value):
            found.append(int(value))
        else:
            wanted = "a fraction from -1 to 1" if fractions else "a whole number from -32768 to 65535 (see --fractions)"
            refuse("%s, line %d: %s is not %s" % (name, number, row[column - 1].strip(), wanted))
    if not found:
        refuse("%s has no number in column %d" % (name, column))
    return found


def samples(words):
    name, data = words.file, bytes_of(words.file)
    if name.lower().endswith(".wav"):
        found = samples_of_wav(data, name, words.channel)
    elif name.lower().endswith(".csv"):
        found = samples_of_csv(data, name, words.column, words.fractions)
    else:
        found = words_of(data, name)
    print("".join("%d %04X\n" % (words.port, sample & 0xFFFF) for sample in found), end="")


def outputs(words):
    """Of each port that is wanted, its outputs in their order."""
    found = {}
    for port, word in re.findall("^([0-9]+) ([0-9A-F]{4})$", text_of(bytes_of(words.outputs), words.outputs), re.MULTILINE):
        value = int(word, 16)
        signed = value - 0x10000 if value >= 0x8000 and not words.unsigned else value
        found.setdefault(int(port), []).append(signed)
    wanted = words.port or sorted(found)
    for port in wanted:
        if port not in found:
            refuse("%s has no output at port %d" % (words.outputs, port))
    if not found:
        refuse("%s has no outputs" % words.outputs)
    return {port: found[port] for port in sorted(set(wanted))}


def as_csv(words):
    found = outputs(words)
    out = csv.writer(sys.stdout, lineterminator="\n")
    out.writerow(["second"] + ["port %d" % port for port in found])
    for number in range(max(map(len, found.values()))):
        out.writerow(["%.6f" % (number / words.rate)] + [of[number] if number < len(of) else "" for of in found.values()])


def as_gnuplot(words):
    found = outputs(words)
    for port, of in found.items():
        print("$port%d << EOD" % port)
        for number, value in enumerate(of):
            print("%.6f %d" % (number / words.rate, value))
        print("EOD")
    print("set xlabel 'seconds'\nset grid\nset key outside top center horizontal")
    print("plot " + ", ".join("$port%d using 1:2 with steps title 'port %d'" % (port, port) for port in found))


def as_wav(words):
    words.unsigned = False
    found = outputs(words)
    if len(found) > 1:
        refuse("%s has outputs at the ports %s: name one of them, --port %d" % (
            words.outputs, ", ".join(map(str, found)), min(found)))
    (of,) = found.values()
    with wave.open(sys.stdout.buffer if words.file == "-" else words.file, "wb") as file:
        file.setparams((1, 2, words.rate, len(of), "NONE", ""))
        file.writeframes(swapped(array.array("h", of)).tobytes())


def number(first, last=None):
    """Reads a whole number, from the first to the last one that is wanted."""
    def of(text):
        value = int(text)
        if value < first or last is not None and value > last:
            raise argparse.ArgumentTypeError("%d is below %d" % (value, first) if value < first else
                                             "%d is above %d" % (value, last))
        return value
    return of


def main():
    parser = argparse.ArgumentParser(description=__doc__, formatter_class=argparse.RawDescriptionHelpFormatter)
    tasks = parser.add_subparsers(dest="task", required=True)
    of = tasks.add_parser("samples")
    of.set_defaults(call=samples)
    of.add_argument("file")
    of.add_argument("--port", type=number(0, 15), default=0)
    of.add_argument("--channel", type=number(0))
    of.add_argument("--column", type=number(1), default=1)
    of.add_argument("--fractions", action="store_true")
    for name, task in (("csv", as_csv), ("gnuplot", as_gnuplot), ("wav", as_wav)):
        of = tasks.add_parser(name)
        of.set_defaults(call=task)
        of.add_argument("outputs")
        of.add_argument("--rate", type=number(1), default=8000)
        if name == "wav":
            of.add_argument("file")
            of.add_argument("--port", type=number(0, 15), nargs=1)
        else:
            of.add_argument("--port", type=number(0, 15), action="append")
            of.add_argument("--unsigned", action="store_true")
    words = parser.parse_args()
    try:
        words.call(words)
        sys.stdout.flush()
    except BrokenPipeError:
        os.dup2(os.open(os.devnull, os.O_WRONLY), sys.stdout.fileno())
    except (OSError, ValueError, wave.Error) as error:
        refuse(str(error))


if __name__ == "__main__":
    main()
