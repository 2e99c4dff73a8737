#!/usr/bin/env python3
"""Writes crates/inspect/data/cave.jpm, the JPM file that `inspect` is run on.

    tools/make_sample.py JP2 > crates/inspect/data/cave.jpm

JP2 is a JPEG 2000 file; its boxes stand before the pages and are skipped whole. The one used was made by
    opj_compress -n 3 -i points.pgm -o points.jp2
(openjpeg 2.5.0, Debian's libopenjp2-tools) from a 16 by 16 grey picture whose point (x, y) is 16 y + x.
"""
import struct
import sys


def box(kind, contents):
    return struct.pack(">I4s", 8 + len(contents), kind) + contents


def long_box(kind, contents):
    return struct.pack(">I4sQ", 1, kind, 16 + len(contents)) + contents


def phdr(ident, objects, height, width, orientation, colour, collection=b""):
    return box(b"phdr", struct.pack(">HHIIHH", ident, objects, height, width, orientation, colour) + collection)


def res(vn, vd, hn, hd, ve, he, more=b""):
    return box(b"res ", box(b"resd", struct.pack(">HHHHbb", vn, vd, hn, hd, ve, he)) + more)


def lhdr(ident, height, width, down, across, style):
    return box(b"lhdr", struct.pack(">HIIIIH", ident, height, width, down, across, style))


def objc(ident, kind, no_codestream, down, across, offset, length, reference, more=b""):
    header = struct.pack(">HHHIIQIH", ident, kind, no_codestream, down, across, offset, length, reference)
    return box(b"objc", box(b"ohdr", header) + more)


def pages(codestream_at, codestream_length):
    # Page 0 is in the written form: the walls of a passage as a mask over its tint, and the tint of a lake.
    first = box(
        b"page",
        phdr(1, 2, 160, 240, 1, 1)
        + res(300, 1, 300, 1, 0, -2)
        + box(b"lobj", lhdr(10, 160, 240, 0, 0, 0)
              + objc(1, 0, 0, 2, 3, codestream_at, codestream_length, 0)
              + objc(2, 1, 1, 0, 0, 0, 0, 0))
        + box(b"lobj", lhdr(7, 40, 60, 80, 100, 2) + objc(3, 1, 0, 0, 0, codestream_at, codestream_length, 0)),
    )
    # Page 1 has skipped boxes at every level, a long length, the image object before the mask object, and a collection.
    label = box(b"lbl ", b"Upper series")
    second = long_box(
        b"page",
        phdr(2, 1, 16, 16, 0, 255, struct.pack(">QIH", 4096, 128, 3))
        + label
        + box(b"lobj", lhdr(1, 16, 16, 0, 0, 0) + label
              + objc(5, 1, 0, 1, 1, codestream_at, codestream_length, 0, label)
              + objc(6, 0, 0, 0, 0, codestream_at, codestream_length, 0))
        + res(1, 3, 2, 7, 4, -128, label)
        + box(b"free", b""),
    )
    return first + second


def main():
    jp2 = open(sys.argv[1], "rb").read()
    at = jp2.index(b"jp2c") - 4
    sys.stdout.buffer.write(jp2 + pages(at, len(jp2) - at) + box(b"free", bytes(5)))


main()
