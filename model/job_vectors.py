"""Vectors for reading, writing and copying job records; vectors.py tells their lines."""

import struct

import job
from edit import OWN, fields, head, house, people, section, stating
from houses import (END, INNER, INNER_AND_END, TWO_ENDS, broken, chain, comb, greedy,
                    halving, star, twelve_kinds, under)
from vector import (Call, Parts, Vector, buffer_bytes, buffer_line, listed, room_of, roomed,
                    with_room, words)


def writing(name, data, expect, holds=None):
    """A vector for the writer; data are its raw fields."""
    return Vector(name, data, expect, holds, "w")


def copying(name, record, room, expect, holds=None, lines=None):
    """A vector for copying a record into a buffer of so many bytes."""
    return Vector(name, with_room(record, room), expect, holds, "c", lines)


# 1, 2 and 4

def lengths():
    cut = OWN[:39]
    return [
        Vector("last byte off", OWN[:-1], 1),
        Vector("one byte more", OWN + b"\0", 1, {1, 4}),
        Vector("a whole section more", OWN + OWN[40:], 1, {1, 4}),
        Vector("length field 51", head(OWN, stated=51), 1, {1}),
        Vector("length field 49", head(OWN, stated=49), 1, {1}),
        Vector("length field 40", head(OWN, stated=40), 1, {1}),
        Vector("length field 0", head(OWN, stated=0), 1, {1}),
        Vector("length field 306", head(OWN, stated=0x132), 1, {1}),
        Vector("length field 65586", head(OWN, stated=0x10032), 1, {1}),
        Vector("length field 16777266", head(OWN, stated=0x1000032), 1, {1}),
        Vector("length field 2147483698", head(OWN, stated=0x80000032), 1, {1}),
        Vector("length field of reversed bytes", head(OWN, stated=0x32000000), 1, {1}),
        Vector("length field 4294967295", head(OWN, stated=2 ** 32 - 1), 1, {1}),
        Vector("39 bytes stating 50", cut, 1),
        Vector("39 bytes stating 39", stating(cut), 1),
        Vector("39 bytes stating 40", head(cut, stated=40), 1),
        Vector("40 bytes stating 50", OWN[:40], 1),
        Vector("16 bytes stating 16", stating(OWN[:16]), 1),
        Vector("8 bytes stating 8", stating(OWN[:8]), 1),
        Vector("5 bytes stating 5", stating(OWN[:5]), 1),
        Vector("4 bytes stating 4", stating(OWN[:4]), 1),
        Vector("3 bytes", OWN[:3], 1),
        Vector("1 byte", OWN[:1], 1),
        Vector("empty", b"", 1),
    ]


def versions():
    return [
        Vector("version 0", head(OWN, version=0), 2, {2}),
        Vector("version 3", head(OWN, version=3), 2, {2}),
        Vector("version 255", head(OWN, version=255), 2, {2}),
    ]


def section_counts():
    none = stating(people(head(OWN[:40], S=0), {7: 0}))
    return [
        Vector("40 bytes, S 0", none, 3, {3}),
        Vector("40 bytes, S 1", stating(OWN[:40]), 4),
        Vector("S 2 in 50 bytes", head(OWN, S=2), 4),
        Vector("S 63 in 50 bytes", head(OWN, S=63), 4),
        Vector("49 bytes stating 49", stating(OWN[:49]), 4),
        Vector("51 bytes stating 51", stating(OWN + b"\0"), 4, {4}),
        Vector("S 1 in 60 bytes", head(TWO_ENDS, S=1), 4, {4}),
        Vector("S 3 in 60 bytes", head(TWO_ENDS, S=3), 4),
        # 40 + 10 x 26 is 300, whose low byte is 44.
        Vector("S 26 in 44 bytes", stating(head(OWN[:44], S=26)), 4),
        Vector("two ends", TWO_ENDS, 0),
    ]


# 3

HEAD_VALUES = [
    ("k", {0: 3, 1: 3, 2: 0, 3: 0, 4: 3, 255: 3}),
    ("S", {0: 3, 1: 0, 64: 3, 65: 3, 129: 3, 255: 3}),
    ("T", {0: 3, 1: 0, 24: 0, 25: 3, 255: 3}),
    ("meter", {0: 0, 255: 0, 256: 0, 1000: 0, 1001: 3, 1024: 3, 65535: 3}),
    ("G", {0: 0, 6000: 0, 6001: 3, 6144: 3, 65535: 3}),
    ("H", {0: 0, 6000: 0, 6001: 3, 6144: 3, 65535: 3}),
    ("limit", {0: 3, 1: 0, 256: 0, 3000: 0, 3001: 3, 3072: 3, 65535: 3}),
]


def head_values():
    return [
        Vector(f"{name} {value}", head(OWN, **{name: value}), expect,
               {3} if expect and name != "S" else None)
        for name, values in HEAD_VALUES for value, expect in values.items()
    ]


# 5

SECTION_VALUES = [
    ("length", {0: 5, 1: 0, 256: 0, 5000: 0, 5001: 5, 5120: 5, 65535: 5}),
    ("elevation", {-1000: 0, -1001: 5, -1: 0, 0: 0, 6000: 0, 6001: 5,
                   32767: 5, -32768: 5}),
    ("free", {0: 0, 256: 0, 1000: 0, 1001: 5, 1024: 5, 65535: 5}),
    ("fixtures", {0: 5, 1: 0, 256: 0, 65535: 0}),
    ("kind", {0: 5, 13: 5, 16: 5, 128: 5, 255: 5}),
    ("parent", {1: 5, 2: 5, 63: 5, 64: 5, 128: 5, 255: 5}),
]

# An edit of these fields leaves 6 and 7 as they were.
ALONE = ("length", "elevation", "free", "parent")


def section_values():
    return [
        Vector(f"{name} {value}", section(OWN, 1, **{name: value}), expect,
               {5} if expect and name in ALONE else None)
        for name, values in SECTION_VALUES for value, expect in values.items()
    ]


def kinds_and_fixtures():
    kind_12 = people(section(OWN, 1, kind=12), {7: 0, 12: 71})
    kind_13 = section(TWO_ENDS, 2, kind=13)
    return [
        Vector("kind 12 alone", kind_12, 0),
        Vector("kind 13 in section 2", kind_13, 5, {5}),
        Vector("kind 7 without fixtures in section 2",
               section(TWO_ENDS, 2, fixtures=0), 5, {5}),
        Vector("inner kind 0", INNER_AND_END, 0),
        Vector("inner kind 0, 1 fixture", section(INNER_AND_END, 1, fixtures=1), 5, {5}),
        Vector("inner kind 0, 256 fixtures", section(INNER_AND_END, 1, fixtures=256), 5, {5}),
        Vector("inner kind 0, free head 1", section(INNER_AND_END, 1, free=1), 5, {5}),
        Vector("inner kind 0, free head 256", section(INNER_AND_END, 1, free=256), 5, {5}),
        Vector("inner kind 0, free head 1001", section(INNER_AND_END, 1, free=1001), 5, {5}),
        Vector("inner kind 0, elevation -1000",
               section(INNER_AND_END, 1, elevation=-1000), 0),
        Vector("inner kind 0, elevation -1001",
               section(INNER_AND_END, 1, elevation=-1001), 5, {5}),
        Vector("inner kind 0, length 0", section(INNER_AND_END, 1, length=0), 5, {5}),
    ]


def parents():
    three = house([END, END, END], {7: 71})
    return [
        Vector("section 2 under the pump", section(TWO_ENDS, 2, parent=0), 0),
        Vector("section 2 under 1", section(TWO_ENDS, 2, parent=1), 0),
        Vector("section 2 under 2", section(TWO_ENDS, 2, parent=2), 5, {5}),
        Vector("section 2 under 3", section(TWO_ENDS, 2, parent=3), 5, {5}),
        Vector("section 2 under 255", section(TWO_ENDS, 2, parent=255), 5, {5}),
        Vector("section 1 under 2", section(TWO_ENDS, 1, parent=2), 5, {5}),
        Vector("section 3 under 2", section(three, 3, parent=2), 0),
        Vector("section 3 under 3", section(three, 3, parent=3), 5, {5}),
        Vector("section 2 under 3 of 3", section(three, 2, parent=3), 5, {5}),
    ]


# 6

def ends_without_kind():
    def with_inner(number, *parents):
        parts = [under(parent, END) for parent in parents]
        parts[number - 1] = under(parents[number - 1], INNER)
        return house(parts, {7: 71})
    return [
        Vector("kind 0 at the only end", section(OWN, 1, kind=0, fixtures=0, free=0), 6, {6, 7}),
        Vector("kind 0 at the first of two ends", with_inner(1, 0, 0), 6, {6}),
        Vector("kind 0 at the last of two ends", with_inner(2, 0, 0), 6, {6}),
        Vector("kind 0 at the middle of three ends", with_inner(2, 0, 0, 0), 6, {6}),
        Vector("kind 0 under an end", with_inner(2, 0, 1), 6, {6}),
        Vector("kind 0 at section 2, section 3 under 1", with_inner(2, 0, 1, 1), 6, {6}),
        Vector("kind 0 at section 2, section 3 under 2", with_inner(2, 0, 1, 2), 0),
        Vector("kind 0 under kind 0",
               house([INNER, under(1, INNER), under(1, END)], {7: 71}), 6, {6}),
    ]


# 7

def residents_without_fixtures():
    return [
        Vector(f"residents of kind {kind} without fixtures", people(OWN, {kind: 1}), 7, {7})
        for kind in range(1, 13) if kind != 7
    ]


def fixtures_without_residents():
    return [
        Vector(f"fixtures of kind {kind} without residents",
               people(section(OWN, 1, kind=kind), {7: 0}), 7, {7})
        for kind in range(1, 13)
    ]


def residents_and_fixtures():
    both = house([END, (0, 3) + END[2:]], {3: 5, 7: 71})
    half = (0, 7, 32768, 100, 600, 200)
    return [
        Vector("1 resident", people(OWN, {7: 1}), 0),
        Vector("256 residents", people(OWN, {7: 256}), 0),
        Vector("65535 residents", people(OWN, {7: 65535}), 0),
        Vector("256 residents without fixtures", people(OWN, {1: 256}), 7, {7}),
        Vector("residents of one kind, fixtures of another",
               people(OWN, {7: 0, 8: 71}), 7, {7}),
        Vector("two kinds", both, 0),
        Vector("two kinds, residents of the first only", people(both, {7: 0}), 7, {7}),
        Vector("two kinds, residents of the second only", people(both, {3: 0}), 7, {7}),
        Vector("fixtures that add up to 65536", house([half, half], {7: 71}), 0),
        Vector("65536 fixtures without residents", house([half, half], {}), 7, {7}),
        Vector("fixtures 65535 and 1",
               house([(0, 7, 65535, 1, 0, 0), (0, 7, 1, 1, 0, 0)], {7: 1}), 0),
    ]


# The order of the numbers

def broken_fields(numbers):
    """The same for the writer; without room where 14 is among the numbers."""
    return fields(broken(numbers), 0 if 14 in numbers else 60)


# The number given, and sets of numbers that hold.
READING_ORDER = {
    1: [{1}, {1, 2}, {1, 3}, {1, 4}, {1, 5}, {1, 6}, {1, 7}, {1, 2, 3, 4, 5, 6, 7}],
    2: [{2}, {2, 3}, {2, 4}, {2, 5}, {2, 6}, {2, 7}, {2, 3, 4, 5, 6, 7}],
    3: [{3}, {3, 4}, {3, 5}, {3, 6}, {3, 7}, {3, 4, 5, 6, 7}],
    4: [{4}, {4, 5}, {4, 6}, {4, 7}, {4, 5, 6, 7}],
    5: [{5}, {5, 6}, {5, 7}, {5, 6, 7}],
    6: [{6}, {6, 7}],
    7: [{7}],
}
WRITING_ORDER = {
    3: [{3}, {3, 5}, {3, 6}, {3, 7}, {3, 14}, {3, 5, 6, 7, 14}],
    5: [{5}, {5, 6}, {5, 7}, {5, 14}, {5, 6, 7, 14}],
    6: [{6}, {6, 7}, {6, 14}, {6, 7, 14}],
    7: [{7}, {7, 14}],
    14: [{14}],
}


def reading_order():
    return [Vector(listed(each), broken(each), expect, each)
            for expect, sets in READING_ORDER.items() for each in sets]


def writing_order():
    return [writing(listed(each), broken_fields(each), expect, each)
            for expect, sets in WRITING_ORDER.items() for each in sets]


def places():
    """Two numbers at given places."""
    first = house([INNER, END], {7: 71})
    last = house([END, INNER], {7: 71})
    return [
        Vector("version 3 and k 4", head(OWN, version=3, k=4), 2, {2, 3}),
        Vector("6 at section 1, 5 at section 2", section(first, 2, length=0), 5, {5, 6}),
        Vector("5 at section 1, 6 at section 2", section(last, 1, length=0), 5, {5, 6}),
        Vector("5 and 6 at section 1", section(first, 1, length=0), 5, {5, 6}),
        Vector("5 and 6 at section 2", section(last, 2, elevation=6001), 5, {5, 6}),
        Vector("6 and 7, 6 at section 1", people(first, {1: 1}), 6, {6, 7}),
        Vector("6 and 7, 6 at section 2", people(last, {12: 1}), 6, {6, 7}),
        Vector("5 at section 1 and 7", people(section(TWO_ENDS, 1, free=1001), {1: 1}), 5, {5, 7}),
        Vector("5 at the last section and 7",
               people(section(TWO_ENDS, 2, parent=2), {1: 1}), 5, {5, 7}),
    ]


# Trees and whole houses

def small_houses():
    high = head(OWN, k=2, T=7, meter=0x0102, G=0x0304, H=0x0506, limit=0x0708)
    offices = house([(0, 11, 50, 100, 600, 200), (0, 11, 200, 100, 600, 200)], {11: 3200})
    return [
        Vector("all bytes of the head's numbers differ", high, 0),
        Vector("all twelve kinds", twelve_kinds(), 0),
        Vector("inner section with kind above 0", house([END, under(1, END)], {7: 71}), 0),
        Vector("two sections at the pump, each with two ends",
               house([INNER, INNER] + [under(p, END) for p in (1, 2, 1, 2)], {7: 71}), 0),
        Vector("comb of 5", comb(5), 0),
        Vector("three sections, greedy widening", greedy(), 0),
        # 8 and 9 are none of reading's numbers.
        Vector("residents 65535, fixtures 65535",
               people(section(OWN, 1, fixtures=65535), {7: 65535}), 0),
        Vector("fixtures 18", section(OWN, 1, fixtures=18), 0),
        Vector("fixtures 70", section(OWN, 1, fixtures=70), 0),
        Vector("fixtures 71", section(OWN, 1, fixtures=71), 0),
        Vector("kind 11 in two ends of 50 and 200", offices, 0),
    ]


def long_houses():
    five_and_seven = section(people(halving(63), {1: 0}), 63, free=1001)
    return [
        Vector("chain of 63", chain(63), 0),
        Vector("star of 63", star(63), 0),
        Vector("comb of 63", comb(63), 0),
        Vector("halving tree of 63, twelve kinds", halving(63), 0),
        Vector("S 62 in the length of 63", head(halving(63), S=62), 4, {4}),
        Vector("S 64 in its length", star(64), 3, {3}),
        Vector("section 63 under 63", section(star(63), 63, parent=63), 5, {5}),
        Vector("5 at section 63, and 7", five_and_seven, 5, {5, 7}),
        Vector("kind 0 at section 63",
               section(star(63), 63, kind=0, fixtures=0, free=0), 6, {6}),
    ]


# The writer

FF = b"\xff" * 10


def writer_rooms():
    return [
        writing("room 50", fields(OWN, 50), 0, set()),
        writing("room 49", fields(OWN, 49), 14, {14}),
        writing("room 51", fields(OWN, 51), 0),
        writing("room 100", fields(OWN, 100), 0),
        writing("room 40", fields(OWN, 40), 14, {14}),
        writing("room 39", fields(OWN, 39), 14, {14}),
        writing("room 1", fields(OWN, 1), 14, {14}),
        writing("room 0", fields(OWN, 0), 14, {14}),
        writing("two sections, room 60", fields(TWO_ENDS, 60), 0),
        writing("two sections, room 59", fields(TWO_ENDS, 59), 14, {14}),
        writing("two sections, room 50", fields(TWO_ENDS, 50), 14, {14}),
        writing("twelve sections, room 160", fields(twelve_kinds(), 160), 0),
        writing("twelve sections, room 159", fields(twelve_kinds(), 159), 14, {14}),
        writing("63 sections, room 670", fields(halving(63), 670), 0),
        writing("63 sections, room 669", fields(star(63), 669), 14, {14}),
        writing("63 sections, room 1000", fields(chain(63), 1000), 0),
    ]


def writer_slots():
    """Slots past S have no influence; slots not given are 0."""
    hung = house([END, INNER], {7: 71})
    return [
        writing("one slot past S full of ff", fields(OWN, 50, FF), 0),
        writing("62 slots past S full of ff", fields(OWN, 60, FF * 62), 0),
        writing("slots past S full of ff, room 49", fields(OWN, 49, FF * 2), 14, {14}),
        writing("a slot past S under the end without a kind",
                fields(hung, 60, house([under(2, END)], {})[40:]), 6, {6}),
        writing("the same slot within S",
                fields(head(hung, S=3), 70, house([under(2, END)], {})[40:]), 0),
        writing("fixtures in a slot past S only",
                fields(people(OWN, {1: 1}), 50, bytes.fromhex("00010001000100000000")), 7, {7}),
        writing("fixtures of another kind in a slot past S",
                fields(people(section(OWN, 1, kind=1), {1: 1, 7: 0}), 50, OWN[40:]), 0),
        writing("S 1, no slot given", fields(OWN[:40], 50), 5),
        writing("S 2, one slot given", fields(head(OWN, S=2), 60), 5),
        writing("S 63, one slot given", fields(head(OWN, S=63), 1000), 5),
    ]


def writer_counts():
    """S out of range gives 3, whatever the slots and the room."""
    none = people(head(OWN[:40], S=0), {7: 0})
    return [
        writing("S 0, no residents, room 40", fields(none, 40), 3, {3}),
        writing("S 0, no slot, room 0", fields(head(OWN[:40], S=0), 0), 3),
        writing("S 64 with 63 slots, room 1000", fields(head(star(63), S=64), 1000), 3),
        writing("S 255 with two slots, room 1000", fields(head(TWO_ENDS, S=255), 1000), 3),
        writing("S 255 with slots full of ff, room 0", fields(head(OWN, S=255), 0, FF * 3), 3),
    ]


def writer_places():
    """Two numbers at given places."""
    first = house([INNER, END], {7: 71})
    return [
        writing("6 at section 1, 5 at section 2", fields(section(first, 2, length=0), 60),
                5, {5, 6}),
        writing("6 at section 1, and 7", fields(people(first, {12: 1}), 60), 6, {6, 7}),
        writing("5 at the last section, and 7",
                fields(people(section(TWO_ENDS, 2, parent=2), {1: 1}), 60), 5, {5, 7}),
        writing("length 0, room 49", fields(section(OWN, 1, length=0), 49), 5, {5, 14}),
    ]


def writer_values():
    """The head and section values that are out of range, for the writer."""
    refused = [each for each in head_values() + section_values() if each.expect]
    return [writing(each.name, fields(each.data, 50), each.expect) for each in refused]


def writer_residents():
    return [
        writing("residents of kind 1 without fixtures", fields(people(OWN, {1: 1}), 50), 7, {7}),
        writing("residents of kind 12 without fixtures", fields(people(OWN, {12: 1}), 50), 7, {7}),
        writing("fixtures of kind 7 without residents", fields(people(OWN, {7: 0}), 50), 7, {7}),
        writing("residents 65535, fixtures 65535",
                fields(people(section(OWN, 1, fixtures=65535), {7: 65535}), 50), 0),
        writing("elevation -1000", fields(section(OWN, 1, elevation=-1000), 50), 0),
    ]


# Copying

def copies():
    return [
        copying("own case, room 50", OWN, 50, 0, set()),
        copying("own case, room 49", OWN, 49, 14, {14}, ["copy 14 " + 49 * "a5"]),
        copying("own case, room 51", OWN, 51, 0, set(), ["copy 0 " + OWN.hex() + "a5"]),
        copying("own case, room 0", OWN, 0, 14, {14}, ["copy 14 "]),
        copying("own case, room 1000", OWN, 1000, 0, set()),
        copying("chain of 63, room 670", chain(63), 670, 0, set()),
        copying("1, room 100", broken({1}), 100, 1, {1}),
        copying("2, room 100", broken({2}), 100, 2, {2}),
        copying("3, room 100", broken({3}), 100, 3, {3}),
        copying("4, room 100", broken({4}), 100, 4, {4}),
        copying("5, room 100", broken({5}), 100, 5, {5}),
        copying("6, room 100", broken({6}), 100, 6, {6}),
        copying("7, room 100", broken({7}), 100, 7, {7}),
        copying("1, room 0", broken({1}), 0, 1, {1, 14}),
        copying("7, room 0", broken({7}), 0, 7, {7, 14}),
        copying("empty record, room 50", b"", 50, 1),
    ]


# The answer to the own case, by hand.
OWN_ANSWER = [
    "read 0",
    "version 1 0",
    "head 3 1 24 50 500 1200 1500",
    "residents 0 0 0 0 0 0 71 0 0 0 0 0",
    "section 1 0 7 80 100 600 200",
    "write 0 0000003201030118003201f404b005dc"
    "000000000000000000000000004700000000000000000000"
    "000700500064025800c8",
]


def own_case():
    return [Vector("document 01's own case", OWN, 0, set(), lines=OWN_ANSWER)]


GROUPS = [
    ("own case", own_case), ("lengths", lengths), ("versions", versions),
    ("head values", head_values), ("section counts", section_counts),
    ("section values", section_values), ("kinds and fixtures", kinds_and_fixtures),
    ("parents", parents), ("ends without a kind", ends_without_kind),
    ("residents without fixtures", residents_without_fixtures),
    ("fixtures without residents", fixtures_without_residents),
    ("residents and fixtures", residents_and_fixtures),
    ("order", reading_order), ("order, places", places),
    ("small houses", small_houses), ("long houses", long_houses),
    ("writer, room", writer_rooms), ("writer, slots", writer_slots),
    ("writer, section counts", writer_counts), ("writer, order", writing_order),
    ("writer, places", writer_places), ("writer, values", writer_values),
    ("writer, residents", writer_residents), ("copying", copies),
]


# The answers

RAW = struct.Struct(">H5B4H12H")


def parse_fields(raw):
    """The room and the job of the writer's raw fields."""
    room, *values = RAW.unpack_from(raw)
    found = [job.Section(*each) for each in job.SECTION.iter_unpack(raw[RAW.size:])]
    slots = tuple(found) + (job.EMPTY,) * (job.SLOTS - len(found))
    return room, job.Job(*values[:9], residents=tuple(values[9:]), slots=slots)


def write_line(what, room):
    return buffer_line("write", job.write(what, room), room)


def job_lines(found):
    numbered = enumerate(found.slots[:found.S], start=1)
    return [words("version", found[:2]), words("head", found[2:9]),
            words("residents", found.residents)] + [
        words("section", (i,) + each) for i, each in numbered]


def read_lines(data):
    number, found = job.read(data)
    if number != 0:
        return [f"read {number}"]
    return ["read 0"] + job_lines(found) + [write_line(found, len(data))]


def write_lines(raw):
    room, what = parse_fields(raw)
    return [write_line(what, room)]


def copy_lines(raw):
    room, record = room_of(raw), raw[2:]
    return [buffer_line("copy", job.copy(record, room), room)]


def record_parts(data):
    """The room is that of the record."""
    return Parts(len(data), data)


def raw_fields(found):
    """The fields as the writer is given them, with S slots."""
    head = struct.pack(">5B4H12H", *found[:9], *found.residents)
    return head + b"".join(job.SECTION.pack(*each) for each in job.sections(found))


def read_bytes(data):
    number, found = job.read(data)
    if number != 0:
        return f"{number:08x}"
    again = buffer_bytes(job.write(found, len(data)), len(data))
    return f"{number:08x} {raw_fields(found).hex()} {again}"


def write_bytes(raw):
    room, what = parse_fields(raw)
    return buffer_bytes(job.write(what, room), room)


def copy_bytes(raw):
    return buffer_bytes(job.copy(raw[2:], room_of(raw)), room_of(raw))


CALLS = {
    "r": Call("read", record_parts, read_lines, read_bytes),
    "w": Call("write", roomed, write_lines, write_bytes),
    "c": Call("copy", roomed, copy_lines, copy_bytes),
}
