#!/usr/bin/env python3
"""Writes crates/cases/stdin and crates/cases/stdout: small files, and what reading each of them answers.

Each case says its answer, worked out by hand from docs/refusals.md. A reader written here, with nothing of the
library, has to give the same answer, or the script stops.
"""
import os
import struct
import sys

ROOT = os.path.join(os.path.dirname(os.path.abspath(__file__)), "..", "crates", "cases")


def box(kind, contents=b"", length=None):
    return struct.pack(">I4s", 8 + len(contents) if length is None else length, kind) + contents


def long_box(kind, contents=b"", length=None):
    return struct.pack(">I4sQ", 1, kind, 16 + len(contents) if length is None else length) + contents


def phdr(objects=0, height=10, width=20, more=b""):
    return box(b"phdr", struct.pack(">HHIIHH", 7, objects, height, width, 9, 300) + more)


def resd(vn=1, vd=2, hn=3, hd=4):
    return box(b"resd", struct.pack(">HHHHbb", vn, vd, hn, hd, -1, 5))


def res(contents=None):
    return box(b"res ", resd() if contents is None else contents)


def lhdr(ident=1, style=3, **how):
    return box(b"lhdr", struct.pack(">HIIIIH", ident, 4, 5, 6, 7, style), **how)


def ohdr(kind=0, flag=0):
    return box(b"ohdr", struct.pack(">HHHIIQIH", 3, kind, flag, 1, 2, 1 << 40, 5, 6))


def objc(kind=0, flag=0, more=b""):
    return box(b"objc", ohdr(kind, flag) + more)


def lobj(ident=1, style=3, objects=None):
    return box(b"lobj", lhdr(ident, style) + (objc() if objects is None else objects))


def page(contents=None, **how):
    return box(b"page", phdr() + res() if contents is None else contents, **how)


def one(layout):
    """A page with one layout object: page header at 8, res at 32, layout object at 58."""
    return page(phdr(1) + res() + layout)


def many(n):
    return page(phdr(min(n, 65535)) + res() + b"".join(lobj(k) for k in range(n)))


SKIP = box(b"free", b"abc")
OK0 = "granted, 0 rows"
OK1 = "granted, 1 rows"


def fault(number, layer, offset):
    return f"refused {number} layer {layer} offset {offset}"


CASES = [
    # what is granted
    ("page_of_no_object", page(), 0, OK0),
    ("page_of_one_object", one(lobj()), 0, OK1),
    ("second_page", page() + one(lobj()), 1, OK1),
    ("third_page_among_skipped", SKIP + page() + SKIP + page() + one(lobj()) + SKIP, 2, OK1),
    ("long_lengths", long_box(b"page", phdr(1) + long_box(b"res ", long_box(b"resd", resd()[8:])) + long_box(b"lobj", long_box(b"lhdr", lhdr()[8:]) + long_box(b"objc", long_box(b"ohdr", ohdr()[8:])))), 0, OK1),
    ("page_to_the_end", box(b"page", phdr() + res(), length=0), 0, OK0),
    ("skipped_to_the_end", page() + box(b"free", b"xyz", length=0), 0, OK0),
    ("skipped_at_every_level", SKIP + page(phdr(1) + SKIP + res(SKIP + resd() + SKIP) + box(b"lobj", lhdr() + SKIP + objc(0, 0, SKIP))), 0, OK1),
    ("res_last", page(phdr(1) + lobj() + res()), 0, OK1),
    ("collection", page(phdr(0, more=bytes(14)) + res()), 0, OK0),
    ("mask_before_image", one(lobj(1, 0, objc(0) + objc(1))), 0, OK1),
    ("image_before_mask", one(lobj(1, 0, objc(1) + objc(0))), 0, OK1),
    ("both_in_one", one(lobj(1, 1, objc(2))), 0, OK1),
    ("image_alone", one(lobj(1, 2, objc(1))), 0, OK1),
    ("no_codestream", one(lobj(1, 3, objc(0, 1))), 0, OK1),
    ("sixty_four_objects", many(64), 0, "granted, 64 rows"),
    ("empty_skipped_box", box(b"free") + page(), 0, OK0),
    # no such page
    ("empty_file", b"", 0, "refused 10"),
    ("no_page", SKIP, 0, "refused 10"),
    ("page_past_the_last", page() + page(), 2, "refused 10"),
    ("page_far_past_the_last", page(), 2**64 - 1, "refused 10"),
    ("fault_before_no_page", page() + b"\0", 5, fault(1, 0, len(page()))),
    ("fault_in_another_page", page() + page(phdr()), 0, fault(3, 1, len(page()))),
    # 1: bytes that are left, and boxes that pass the end
    ("one_byte_left", b"\0", 0, fault(1, 0, 0)),
    ("seven_bytes_left", page() + bytes(7), 0, fault(1, 0, len(page()))),
    ("box_passes_the_file", box(b"free", b"abc", length=12), 0, fault(1, 0, 0)),
    ("long_header_passes_the_file", struct.pack(">I4s", 1, b"free") + bytes(7), 0, fault(1, 0, 0)),
    ("long_box_passes_the_file", long_box(b"free", b"", length=17), 0, fault(1, 0, 0)),
    ("longest_length", long_box(b"free", b"", length=2**64 - 1), 0, fault(1, 0, 0)),
    ("bytes_left_in_page", page(phdr() + res() + bytes(3)), 0, fault(1, 1, 58)),
    ("box_passes_the_page", page(phdr() + res() + box(b"free", b"", length=9)), 0, fault(1, 1, 58)),
    ("bytes_left_in_res", page(phdr() + res(resd() + b"x")), 0, fault(1, 1, 58)),
    ("bytes_left_in_lobj", one(lobj(1, 3, objc() + b"xy")), 0, fault(1, 2, 138)),
    ("bytes_left_in_objc", one(lobj(1, 3, objc(0, 0, b"xyz"))), 0, fault(1, 3, 138)),
    # 2: lengths
    ("length_7", box(b"free", b"", length=7), 0, fault(2, 0, 0)),
    ("length_2", box(b"free", b"", length=2), 0, fault(2, 0, 0)),
    ("long_length_15", long_box(b"free", b"", length=15), 0, fault(2, 0, 0)),
    ("length_0_in_page", page(phdr() + res() + box(b"free", b"", length=0)), 0, fault(2, 1, 58)),
    ("length_0_in_res", page(phdr() + res(box(b"resd", bytes(10), length=0))), 0, fault(2, 1, 40)),
    ("lhdr_of_length_7", one(box(b"lobj", lhdr(length=7) + objc())), 0, fault(2, 2, 66)),
    ("length_0_in_objc", one(lobj(1, 3, box(b"objc", box(b"ohdr", bytes(28), length=0)))), 0, fault(2, 3, 102)),
    # 3: places
    ("phdr_in_file", phdr(), 0, fault(3, 0, 0)),
    ("ohdr_in_file", ohdr(), 0, fault(3, 0, 0)),
    ("page_in_page", page(phdr() + res() + page()), 0, fault(3, 1, 58)),
    ("lobj_in_lobj", one(lobj(1, 3, objc() + lobj())), 0, fault(3, 2, 138)),
    ("resd_in_page", page(phdr() + resd() + res()), 0, fault(3, 1, 32)),
    ("phdr_in_res", page(phdr() + res(resd() + phdr())), 0, fault(3, 1, 58)),
    ("phdr_in_objc", one(lobj(1, 3, objc(0, 0, phdr()))), 0, fault(3, 3, 138)),
    ("second_phdr", page(phdr() + res() + phdr()), 0, fault(3, 1, 58)),
    ("second_res", page(phdr() + res() + res()), 0, fault(3, 1, 58)),
    ("second_resd", page(phdr() + res(resd() + resd())), 0, fault(3, 1, 58)),
    ("second_lhdr", one(box(b"lobj", lhdr() + lhdr(2))), 0, fault(3, 2, 94)),
    ("third_objc", one(lobj(1, 0, objc(0) + objc(1) + objc(0))), 0, fault(3, 2, 182)),
    ("second_ohdr", one(lobj(1, 3, objc(0, 0, ohdr()))), 0, fault(3, 3, 138)),
    ("phdr_after_skipped", page(SKIP + phdr() + res()), 0, fault(3, 1, 19)),
    ("lhdr_after_objc", one(box(b"lobj", objc() + lhdr())), 0, fault(3, 2, 110)),
    ("ohdr_after_skipped", one(lobj(1, 3, box(b"objc", SKIP + ohdr()))), 0, fault(3, 3, 113)),
    ("page_of_nothing", page(b""), 0, fault(3, 1, 0)),
    ("page_without_res", page(phdr()), 0, fault(3, 1, 0)),
    ("page_without_phdr", SKIP + page(res()), 0, fault(3, 1, 11)),
    ("res_of_nothing", page(phdr() + res(b"")), 0, fault(3, 1, 32)),
    ("lobj_of_nothing", one(box(b"lobj")), 0, fault(3, 2, 58)),
    ("lobj_without_objc", one(box(b"lobj", lhdr())), 0, fault(3, 2, 58)),
    ("lobj_without_lhdr", one(box(b"lobj", objc())), 0, fault(3, 2, 58)),
    ("objc_of_nothing", one(lobj(1, 3, box(b"objc"))), 0, fault(3, 3, 94)),
    # 4: sizes of contents
    ("phdr_of_15", page(box(b"phdr", bytes(15)) + res()), 0, fault(4, 1, 8)),
    ("phdr_of_17", page(box(b"phdr", bytes(17)) + res()), 0, fault(4, 1, 8)),
    ("phdr_of_29", page(box(b"phdr", bytes(29)) + res()), 0, fault(4, 1, 8)),
    ("resd_of_9", page(phdr() + res(box(b"resd", bytes(9)))), 0, fault(4, 1, 40)),
    ("lhdr_of_length_8", one(box(b"lobj", box(b"lhdr") + objc())), 0, fault(4, 2, 66)),
    ("lhdr_of_21", one(box(b"lobj", box(b"lhdr", bytes(21)) + objc())), 0, fault(4, 2, 66)),
    ("ohdr_of_27", one(lobj(1, 3, box(b"objc", box(b"ohdr", bytes(27))))), 0, fault(4, 3, 102)),
    # 5: values
    ("height_0", page(phdr(0, 0) + res()), 0, fault(5, 1, 8)),
    ("width_0", page(phdr(0, 1, 0) + res()), 0, fault(5, 1, 8)),
    ("vertical_numerator_0", page(phdr() + res(resd(0))), 0, fault(5, 1, 40)),
    ("vertical_denominator_0", page(phdr() + res(resd(1, 0))), 0, fault(5, 1, 40)),
    ("horizontal_numerator_0", page(phdr() + res(resd(1, 1, 0))), 0, fault(5, 1, 40)),
    ("horizontal_denominator_0", page(phdr() + res(resd(1, 1, 1, 0))), 0, fault(5, 1, 40)),
    ("style_4", one(lobj(1, 4)), 0, fault(5, 2, 66)),
    ("style_255", one(lobj(1, 255)), 0, fault(5, 2, 66)),
    ("object_type_3", one(lobj(1, 3, objc(3))), 0, fault(5, 3, 102)),
    ("no_codestream_2", one(lobj(1, 3, objc(0, 2))), 0, fault(5, 3, 102)),
    # 6: styles
    ("style_0_with_one", one(lobj(1, 0, objc(0))), 0, fault(6, 2, 58)),
    ("style_0_with_two_masks", one(lobj(1, 0, objc(0) + objc(0))), 0, fault(6, 2, 58)),
    ("style_0_with_both", one(lobj(1, 0, objc(2) + objc(1))), 0, fault(6, 2, 58)),
    ("style_1_with_mask", one(lobj(1, 1, objc(0))), 0, fault(6, 2, 58)),
    ("style_2_with_mask", one(lobj(1, 2, objc(0))), 0, fault(6, 2, 58)),
    ("style_3_with_image", one(lobj(1, 3, objc(1))), 0, fault(6, 2, 58)),
    ("style_3_with_two", one(lobj(1, 3, objc(0) + objc(1))), 0, fault(6, 2, 58)),
    # 7: identifiers and counts
    ("identifier_twice", page(phdr(2) + res() + lobj(5) + lobj(5)), 0, fault(7, 2, 146)),
    ("identifier_in_two_pages", one(lobj(5)) + one(lobj(5)), 1, OK1),
    ("one_object_too_few", page(phdr(2) + res() + lobj()), 0, fault(7, 1, 0)),
    ("one_object_too_many", page(phdr(0) + res() + lobj()), 0, fault(7, 1, 0)),
    # 8: the 65th layout object
    ("sixty_five_objects", many(65), 0, fault(8, 1, 58 + 64 * 80)),
    # the order of tests
    ("first_fault_decides", page(phdr(0, 0) + resd()), 0, fault(5, 1, 8)),
    ("size_before_value", page(box(b"phdr", bytes(14)) + res()), 0, fault(4, 1, 8)),
    ("place_before_size", page(phdr() + res() + box(b"phdr")), 0, fault(3, 1, 58)),
    ("missing_before_count", page(phdr(3)), 0, fault(3, 1, 0)),
    ("inside_before_end", page(phdr(3) + res() + lobj(1, 1, objc(0))), 0, fault(6, 2, 58)),
    ("value_before_identifier", page(phdr(2) + res() + lobj(5) + lobj(5, 9)), 0, fault(5, 2, 146)),
]

PLACES = {b"page": "file", b"phdr": "page", b"res ": "page", b"resd": "res", b"lobj": "page", b"lhdr": "lobj", b"objc": "lobj", b"ohdr": "objc"}
MOST = {b"page": 1 << 70, b"phdr": 1, b"res ": 1, b"resd": 1, b"lobj": 64, b"lhdr": 1, b"objc": 2, b"ohdr": 1}
LEAST = {b"phdr": 1, b"res ": 1, b"resd": 1, b"lhdr": 1, b"objc": 1, b"ohdr": 1}
FIRST = {b"phdr", b"lhdr", b"ohdr"}
LAYER = {"file": 0, "page": 1, "res": 1, "lobj": 2, "objc": 3}
INSIDE = {b"page": "page", b"res ": "res", b"lobj": "lobj", b"objc": "objc"}


class Refused(Exception):
    pass


def header_values(kind, data, state, name, at):
    """The tests of a header box's contents, and what the containers keep of it."""
    sizes = {b"phdr": (16, 30), b"resd": (10,), b"lhdr": (20,), b"ohdr": (28,)}[kind]
    if len(data) not in sizes:
        raise Refused(4, name, at)
    if kind == b"phdr":
        _, state["nlobj"], height, width = struct.unpack(">HHII", data[:12])
        bad = height == 0 or width == 0
    elif kind == b"resd":
        bad = 0 in struct.unpack(">HHHH", data[:8])
    elif kind == b"lhdr":
        state["id"], state["style"] = struct.unpack(">H", data[:2])[0], struct.unpack(">H", data[18:])[0]
        bad = state["style"] > 3
    else:
        state["type"], flag = struct.unpack(">HH", data[2:6])
        bad = state["type"] > 2 or flag > 1
    if bad:
        raise Refused(5, name, at)
    if kind == b"lhdr" and state["id"] in state["ids"]:
        raise Refused(7, name, at)


def walk(name, data, start, end, own, state):
    at, seen = start, {}
    first = True
    while at < end:
        if end - at < 8:
            raise Refused(1, name, at)
        length, kind = struct.unpack(">I4s", data[at:at + 8])
        head = 8
        if length == 1:
            if end - at < 16:
                raise Refused(1, name, at)
            length, head = struct.unpack(">Q", data[at + 8:at + 16])[0], 16
        elif length == 0:
            if name != "file":
                raise Refused(2, name, at)
            length = end - at
        if length > end - at:
            raise Refused(1, name, at)
        if length < head:
            raise Refused(2, name, at)
        if kind in PLACES:
            have = seen.get(kind, 0)
            if kind == b"lobj" and name == "page" and have == 64:
                raise Refused(8, name, at)
            if PLACES[kind] != name or have >= MOST[kind] or (kind in FIRST and not first):
                raise Refused(3, name, at)
            seen[kind] = have + 1
            if kind in INSIDE:
                inner = {"ids": state.get("ids", set()) if kind == b"lobj" else set(), "rows": 0, "types": []}
                walk(INSIDE[kind], data, at + head, at + length, at, inner)
                if kind == b"lobj":
                    state["ids"].add(inner["id"])
                    state["rows"] += 1
                elif kind == b"objc":
                    state["types"].append(inner["type"])
                elif kind == b"page":
                    state["pages"].append(inner["rows"])
            else:
                header_values(kind, data[at + head:at + length], state, name, at)
        at, first = at + length, False
    for kind, place in PLACES.items():
        if place == name and seen.get(kind, 0) < LEAST.get(kind, 0):
            raise Refused(3, name, own)
    if name == "lobj" and sorted(state["types"]) != {0: [0, 1], 1: [2], 2: [1], 3: [0]}[state["style"]]:
        raise Refused(6, name, own)
    if name == "page" and state["nlobj"] != state["rows"]:
        raise Refused(7, name, own)


def answer(data, number):
    state = {"pages": []}
    try:
        walk("file", data, 0, len(data), 0, state)
    except Refused as refused:
        reason, name, at = refused.args
        return fault(reason, LAYER[name], at)
    return f"granted, {state['pages'][number]} rows" if number < len(state["pages"]) else "refused 10"


def main():
    with open(os.path.join(ROOT, "stdin"), "w") as given, open(os.path.join(ROOT, "stdout"), "w") as wanted:
        for name, data, number, expected in CASES:
            if answer(data, number) != expected:
                sys.exit(f"{name}: by hand {expected}, by this script {answer(data, number)}")
            given.write(f"{name} {number} hex:{data.hex()}\n")
            wanted.write(f"{name}: {expected}\n")
    print(len(CASES), "cases")


main()
