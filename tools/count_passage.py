#!/usr/bin/env python3
"""Prints what the lays, wipes and the close of the passage part of crates/draw/data/session.txt answer, worked out from levels alone,
with nothing of the library:

    tools/count_passage.py

The lines are those of crates/draw/stdout from `open 0 0 160 120` on.
"""
import os

import compose_passage as sheet

WIDTH, HEIGHT, OBJECTS = sheet.plan("passage.jpm")
(MASK_WIDTH, MASK_HEIGHT), MASK = sheet.netpbm("passage-mask.pgm")


def lacks_image(x, y, arrived):
    """Whether the touch of object 0 lacks its image's sample, whose rows are there up to `arrived`."""
    across, down, wide, high, (mask_across, mask_down), (image_across, image_down) = OBJECTS[0]
    if not (across <= x < across + wide and down <= y < down + high):
        return False
    column, row = x - across - mask_across, y - down - mask_down
    if not (0 <= column < MASK_WIDTH and 0 <= row < MASK_HEIGHT) or MASK[row * MASK_WIDTH + column] == 0:
        return False
    return y - down - image_down >= arrived


def main():
    lines = open(os.path.join(sheet.DATA, "session.txt")).read().split("page passage.jpm 0\n")[1].splitlines()
    levels = {(x, y): 0 for y in range(HEIGHT) for x in range(WIDTH)}
    arrived, raised, wiped = MASK_HEIGHT, 0, 0
    for words in (line.split() for line in lines):
        if words[0] == "arrive":
            arrived = int(words[3])
        if words[0] in ("lay", "wipe"):
            left, top, right, bottom = map(int, words[-4:])
            window = [(x, y) for y in range(top, bottom) for x in range(left, right)]
        if words[0] == "lay":
            k = int(words[1])
            turn = [cell for cell in window if levels[cell] == k]
            late = [cell for cell in turn if k == 0 and lacks_image(*cell, arrived)]
            if late:
                print(*words[:5], words[5] + ": refused 31 at", *late[0])
                continue
            levels.update((cell, k + 1) for cell in turn)
            raised += len(turn)
            print(*words[:5], f"{words[5]}: raised {len(turn)}, passed {len(window) - len(turn)}")
        if words[0] == "wipe":
            former = sum(levels[cell] for cell in window)
            levels.update((cell, 0) for cell in window)
            wiped += former
            print(*words[:4], f"{words[4]}: levels {former}")
    finished = sum(level == len(OBJECTS) for level in levels.values())
    print(f"close: finished {finished}, levels {sum(levels.values())}, raised {raised}, wiped {wiped}, balanced")


main()
