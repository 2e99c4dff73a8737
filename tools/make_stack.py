#!/usr/bin/env python3
"""Writes a JPM file to standard output: one page of 1,024 by 64 points with 64 layout objects of the page's size, each of which begins some points from the corner."""
import struct
import sys


def box(kind, contents):
    return struct.pack(">I4s", 8 + len(contents), kind) + contents


def part(ident, kind):
    return box(b"objc", box(b"ohdr", struct.pack(">HHHIIQIH", ident, kind, 1, 0, 0, 0, 0, 0)))


def layout_object(ident):
    header = box(b"lhdr", struct.pack(">HIIIIH", ident, 64, 1024, ident % 4, ident % 16, 0))
    return box(b"lobj", header + part(1, 0) + part(2, 1))


header = box(b"phdr", struct.pack(">HHIIHH", 1, 64, 64, 1024, 1, 1))
resolution = box(b"res ", box(b"resd", struct.pack(">HHHHbb", 300, 1, 300, 1, 0, 0)))
sys.stdout.buffer.write(box(b"page", header + resolution + b"".join(layout_object(k) for k in range(64))))
