#!/usr/bin/env python3
"""Writes a JPM file of about 100 MB to standard output: 300 page boxes of 64 layout objects each, between skipped boxes of the size of a codestream."""
import struct
import sys


def box(kind, contents):
    return struct.pack(">I4s", 8 + len(contents), kind) + contents


def objc(ident, kind):
    return box(b"objc", box(b"ohdr", struct.pack(">HHHIIQIH", ident, kind, 0, 1, 2, 77, 180, 0)))


def lobj(ident):
    header = box(b"lhdr", struct.pack(">HIIIIH", ident, 100, 200, 3 * ident, 5 * ident, 0))
    return box(b"lobj", header + objc(2 * ident, 0) + objc(2 * ident + 1, 1))


def page(ident):
    header = box(b"phdr", struct.pack(">HHIIHH", ident, 64, 4000, 3000, 1, 1))
    res = box(b"res ", box(b"resd", struct.pack(">HHHHbb", 300, 1, 300, 1, 0, 0)))
    return box(b"page", header + res + b"".join(lobj(k) for k in range(64)))


for number in range(300):
    sys.stdout.buffer.write(box(b"jp2c", bytes(325_000)) + page(number))
