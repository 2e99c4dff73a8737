#!/usr/bin/env python3
"""Composes the passage sheet of crates/draw/data in one go, with nothing of the library, and writes it as a picture.

    tools/compose_passage.py > passage.ppm

The picture that `draw` saves from its uneven windows has to be the same, byte for byte: docs/passage.ppm is.
"""
import os
import struct
import sys

DATA = os.path.join(os.path.dirname(os.path.abspath(__file__)), "..", "crates", "draw", "data")


def boxes(data, at, end):
    while at < end:
        length, kind = struct.unpack(">I4s", data[at:at + 8])
        yield kind, at + 8, at + length
        at += length


def netpbm(name):
    data = open(os.path.join(DATA, name), "rb").read()
    words = data.split(None, 4 if data[:2] != b"P4" else 3)
    head = words[:4] if data[:2] != b"P4" else words[:3]
    size = int(head[1]), int(head[2])
    start = data.index(head[-1], data.index(b"\n")) + len(head[-1]) + 1 if data[:2] == b"P4" else data.index(b"255") + 4
    return size, data[start:]


def plan(name):
    data = open(os.path.join(DATA, name), "rb").read()
    (_, start, end), = [b for b in boxes(data, 0, len(data)) if b[0] == b"page"]
    objects = []
    for kind, a, b in boxes(data, start, end):
        if kind == b"phdr":
            height, width = struct.unpack(">II", data[a + 4:a + 12])
        if kind == b"lobj":
            parts = {}
            for inner, c, d in boxes(data, a, b):
                if inner == b"lhdr":
                    _, lheight, lwidth, lvoff, lhoff, _ = struct.unpack(">HIIIIH", data[c:d])
                else:
                    _, kind_of, _, ovoff, ohoff = struct.unpack(">HHHII", data[c + 8:c + 22])
                    parts[kind_of] = (ohoff, ovoff)
            objects.append((lhoff, lvoff, lwidth, lheight, parts[0], parts[1]))
    return width, height, objects


def blend(below, above, cover):
    return (below * (255 - cover) + above * cover + 127) // 255


def main():
    width, height, objects = plan("passage.jpm")
    (mw, mh), mask = netpbm("passage-mask.pgm")
    (tw, th), tints = netpbm("passage-tints.ppm")
    (lw, lh), lake = netpbm("lake.pbm")
    row = (lw + 7) // 8
    sources = [
        (mw, mh, lambda x, y: mask[y * mw + x], tw, th, lambda x, y: tints[3 * (y * tw + x):3 * (y * tw + x) + 3]),
        (lw, lh, lambda x, y: 255 * (lake[y * row + x // 8] >> (7 - x % 8) & 1), lw, lh, lambda x, y: (70, 120, 170)),
    ]
    out = bytearray()
    for y in range(height):
        for x in range(width):
            colour = (236, 230, 214)
            for (across, down, wide, high, mo, io), (cw, ch, cover_at, iw, ih, tint_at) in zip(objects, sources):
                if not (across <= x < across + wide and down <= y < down + high):
                    continue
                mx, my, ix, iy = x - across - mo[0], y - down - mo[1], x - across - io[0], y - down - io[1]
                if not (0 <= mx < cw and 0 <= my < ch and 0 <= ix < iw and 0 <= iy < ih):
                    continue
                cover = cover_at(mx, my)
                colour = tuple(blend(b, a, cover) for b, a in zip(colour, tint_at(ix, iy)))
            out += bytes(colour)
    sys.stdout.buffer.write(b"P6\n%d %d\n255\n" % (width, height) + out)


if __name__ == "__main__":
    main()
