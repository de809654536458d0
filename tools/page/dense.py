"""Bytes as text of UTF-8 that a script may have between quotes: seven bits in each byte, where base64 has six.

A character below 80h is a group of seven bits. A group that must not stand as itself (the end of a line, a quote, and others that an
editor or a browser may change) makes one character of two bytes with the group behind it: 100h, 80h for each such group before it in
ASIDE, and the group behind. So eight characters, or bytes, hold seven bytes in any case. `src/dense.js` reads it.
"""
ASIDE = b'\0\t\n\v\f\r\x1a"<\\\x7f'
FIRST = 0x100
GROUP = 7
SIZE = 1 << GROUP


def groups(data):
    """The bits of bytes from the highest on, in groups of seven; the last one is filled up by zeros."""
    held = bits = 0
    for byte in data:
        held, bits = held << 8 | byte, bits + 8
        while bits >= GROUP:
            bits -= GROUP
            yield held >> bits
            held &= (1 << bits) - 1
    if bits:
        yield held << GROUP - bits


def dense(data):
    """The text of bytes. Zero bits fill up its end: a reader is told how many bytes there are."""
    written, rest = [], groups(data)
    for group in rest:
        place = ASIDE.find(group)
        written.append(chr(group if place < 0 else FIRST + SIZE * place + next(rest, 0)))
    return "".join(written)
