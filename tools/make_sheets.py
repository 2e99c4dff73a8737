#!/usr/bin/env python3
"""Writes the files that `draw` is run on into a folder: small.jpm, large.jpm, passage.jpm and the passage's samples.

    tools/make_sheets.py crates/draw/data

small.jpm is the small sheet of the worked cases. large.jpm is a page of 4,096 by 4,096 points with no object. passage.jpm
is a page of 160 by 120 points: a cave passage as a mask over tints, and a lake as bits over one tint.
"""
import math
import struct
import sys


def box(kind, contents):
    return struct.pack(">I4s", 8 + len(contents), kind) + contents


def page(width, height, objects):
    header = box(b"phdr", struct.pack(">HHIIHH", 1, len(objects), height, width, 1, 1))
    resolution = box(b"res ", box(b"resd", struct.pack(">HHHHbb", 300, 1, 300, 1, 0, 0)))
    return box(b"page", header + resolution + b"".join(objects))


def layout_object(ident, across, down, width, height, mask=(0, 0), image=(0, 0)):
    header = box(b"lhdr", struct.pack(">HIIIIH", ident, height, width, down, across, 0))
    return box(b"lobj", header + layout_part(1, 0, mask) + layout_part(2, 1, image))


def layout_part(ident, kind, offsets):
    across, down = offsets
    return box(b"objc", box(b"ohdr", struct.pack(">HHHIIQIH", ident, kind, 1, down, across, 0, 0, 0)))


def passage_cover(x, y):
    # A winding passage, soft at its walls.
    middle = 50 + 22 * math.sin(x / 21)
    inside = 17 + 5 * math.sin(x / 9) - abs(y - middle)
    return max(0, min(255, round(64 * inside)))


def passage_tint(x, y):
    # Rock, lighter upwards and with layers.
    layer = 18 if (y + x // 7) % 14 < 5 else 0
    return (190 - y + layer, 150 - y // 2 + layer, 105 + layer)


def lake_bit(x, y):
    # A round lake.
    return (x - 22) ** 2 + 3 * (y - 11) ** 2 < 400


def main(folder):
    def put(name, contents):
        with open(folder + "/" + name, "wb") as out:
            out.write(contents)

    put("small.jpm", page(4, 2, [layout_object(0, 1, 0, 2, 2), layout_object(1, 2, 1, 5, 1)]))
    put("large.jpm", page(4096, 4096, []))
    put("passage.jpm", page(160, 120, [layout_object(7, 4, 6, 152, 108), layout_object(9, 60, 60, 45, 23)]))
    covers = bytes(passage_cover(x, y) for y in range(108) for x in range(152))
    put("passage-mask.pgm", b"P5\n152 108\n255\n" + covers)
    tints = bytes(v for y in range(108) for x in range(152) for v in passage_tint(x, y))
    put("passage-tints.ppm", b"P6\n152 108\n255\n" + tints)
    rows = []
    for y in range(23):
        bits = "".join("1" if lake_bit(x, y) else "0" for x in range(45)) + "000"
        rows.append(bytes(int(bits[i:i + 8], 2) for i in range(0, 48, 8)))
    put("lake.pbm", b"P4\n45 23\n" + b"".join(rows))


main(sys.argv[1])
