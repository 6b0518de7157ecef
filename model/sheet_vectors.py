"""Vectors for the sheet; vectors.py tells their lines."""

import random

import sheet
from edit import OWN, head, house, put, section, serving
from first_rows import READINGS, SHORT_BASIN
from flow_vectors import BATHS_OVER_BASINS, end, inner
from houses import (BASIN, OWN_BESIDE_BASIN, OWN_COLD, OWN_HOT, OWN_OVER_BASIN, OWN_TOTAL, SERVICES,
                    greedy)
from rating_vectors import (AROUND_140, FARTHEST, GREEDY_SIZES, LEVEL, MOST_FLOW, SIZES, TAPPED,
                            THREE_BASINS, catalogue, low, one_under, order_parts, random_parts)
from vector import Call, Parts, Vector

# The bytes of the own case: the job, the catalogue, and size 2.
INPUT = OWN + SIZES + b"\2"

# The least buffer that gets a text.
BUFFER = 4096


def four(number):
    return number.to_bytes(4, "big")


def printing(name, data, expect, holds=None, lines=None, zeros=0, room=BUFFER):
    """A vector for the sheet of these bytes and so many zero bytes more."""
    return Vector(name, (four(room), four(zeros), data), expect, holds, "s", lines)


def refused(name, data, number, holds=None, **more):
    """A vector whose sheet is the line of a refusal."""
    text = f"refused {number}"
    return printing(name, data, number, holds, [f"sheet {len(text) + 1}", text], **more)


def rated(name, data, *lines, **more):
    """A vector that is rated, with lines of its sheet."""
    return printing(name, data, 0, set(), list(lines), **more)


def whole(name, data, *lines, **more):
    """The same with all its lines, and so its length."""
    length = sum(len(line) + 1 for line in lines)
    return rated(name, data, f"sheet {length}", *lines, **more)


# The own case

OWN_LINES = ["house 4542 17750 740", "section 1 2052 1026 71", "head 921 421 1"]


def own_case():
    return [
        whole("sheet, document 01's own case", INPUT, *OWN_LINES),
        refused("sheet, own case, size 1", OWN + SIZES + b"\1", 13, {13}),
        whole("sheet, own case, H 0", head(OWN, H=0) + SIZES + b"\2", *OWN_LINES),
    ]


def buffers():
    return [whole(f"sheet, buffer of {room}", INPUT, *OWN_LINES, room=room)
            for room in (4096, 4097, 8192)] + [
        printing(f"sheet, buffer of {room}: nothing is written", INPUT, 0, set(), ["sheet 0"],
                 room=room) for room in (4095, 59, 0)]


# Where the records end

def short_inputs():
    return [refused(f"sheet, {count} bytes", INPUT[:count], 1)
            for count in (0, 1, 3, 4, 5, 30, 39, 40, 49)] + [
        refused("sheet, four zero bytes", bytes(4), 1),
        refused("sheet, three bytes ff", b"\xff" * 3, 1),
        refused("sheet, four bytes ff", b"\xff" * 4, 1),
    ]


def stated_jobs():
    """Of the own case's 98 bytes the job takes as many as it states; the rest
    is cut as a catalogue and a size list."""
    return [refused(f"sheet, job stating {stated}", head(INPUT, stated=stated), number)
            for stated, number in [
                (0, 1), (1, 1), (4, 1), (39, 1), (40, 4), (49, 4), (51, 4), (97, 4), (98, 4),
                (99, 1), (306, 1), (65_586, 1), (2 ** 31 + 50, 1), (2 ** 32 - 1, 1)]] + [
        refused("sheet, 40 bytes of job stating 40", head(INPUT[:40], stated=40), 4),
        refused("sheet, job alone", OWN, 10, {10, 12}),
    ]


def stated_catalogues():
    """The catalogue starts at byte 50, and 48 bytes are left for it."""
    return [refused(f"sheet, {count} bytes of catalogue", INPUT[:50 + count], 10)
            for count in (1, 3, 4, 5, 6, 7, 46)] + [
        refused(f"sheet, catalogue stating {stated}", put(INPUT, 50, 4, stated), 10)
        for stated in (0, 1, 6, 7, 46, 48, 49, 2 ** 32 - 1)] + [
        refused("sheet, catalogue of 7 bytes stating 7", put(INPUT[:57], 50, 4, 7), 10),
    ]


def sizes():
    return [
        refused("sheet, one byte less", INPUT[:-1], 12, {12}),
        refused("sheet, one byte more", INPUT + b"\2", 12, {12}),
        refused("sheet, a newline more", INPUT + b"\n", 12, {12}),
        refused("sheet, 1,000 zero bytes more", INPUT, 12, {12}, zeros=1000),
        refused("sheet, zero bytes to the last that is read", INPUT, 12, {12}, zeros=65_438),
        refused("sheet, zero bytes past it", INPUT, 12, {12}, zeros=65_439),
        refused("sheet, size 0", INPUT[:-1] + b"\0", 12, {12}),
        refused("sheet, size 3", INPUT[:-1] + b"\3", 12, {12}),
        refused("sheet, a figure in text", INPUT[:-1] + b"2", 12, {12}),
    ]


def long_inputs():
    """A head that would be fine, stating many bytes, with zero bytes after it."""
    def stating(stated, total):
        return head(OWN, stated=stated), total - len(OWN)

    found = []
    for stated, total, number in [
            (65_536, 65_536, 4), (65_536, 65_537, 4), (65_536, 70_000, 4), (65_536, 65_535, 1),
            (65_537, 65_537, 1), (65_537, 65_536, 1), (65_537, 70_000, 1), (70_000, 70_000, 1),
            (65_535, 65_535, 4), (65_535, 65_536, 4), (131_072, 131_072, 1), (1000, 131_072, 4)]:
        data, zeros = stating(stated, total)
        found.append(refused(f"sheet, job stating {stated} in {total} bytes", data, number,
                             zeros=zeros))
    return found + [
        refused("sheet, catalogue to the last byte read", put(INPUT, 50, 4, 65_486), 10,
                {10, 12}, zeros=65_438),
        refused("sheet, catalogue past it", put(INPUT, 50, 4, 65_487), 10, {10, 12}, zeros=65_439),
    ]


# Each number

def order():
    """1 never holds alone here: a job is cut at its stated length, so 1 is
    either a job under 40 bytes, which is 4 too, or one that the input ends in."""
    found = []
    for number in range(2, 14):
        parts = order_parts({number})
        data = parts["record"] + parts["sizes"] + bytes(parts["numbers"])
        found.append(refused(f"sheet, {number} alone", data, number, {number}))
    ten = put(SIZES, 4, 1, 2)
    return found + [
        refused("sheet, 9 and 10", section(OWN, 1, fixtures=70) + ten + b"\2", 9, {9, 10}),
        refused("sheet, 10 and 12", OWN + ten + b"\0", 10, {10, 12}),
        refused("sheet, 11 and 12", OWN + put(SIZES, 9, 2, 0) + b"\0", 11, {11, 12}),
        refused("sheet, S 64", head(INPUT, S=64), 3),
    ]


# Heads

def negative_heads():
    return [whole(f"sheet, required head {required}", low(elevation, **more) + SIZES + b"\2",
                  *OWN_LINES[:2], f"head {required} {pump} 1")
            for elevation, more, required, pump in [
                (-321, {}, 0, 0), (-322, {}, -1, 0), (-331, {}, -10, 0), (-421, {}, -100, 0),
                (-1000, {"free": 0, "meter": 0}, -929, 0)]] + [
        whole("sheet, pump head 0", head(OWN, G=921) + SIZES + b"\2", *OWN_LINES[:2],
              "head 921 0 1"),
        rated("sheet, the greatest loss", section(OWN, 1, length=5000)
              + catalogue((50, 1300, (2052, 1500, 65_535), (3000, 1500, 65_535))) + b"\1",
              "section 1 2052 1500 4259775", "head 4260625 4260125 1"),
    ]


# Houses of several sections

def one_tap():
    """As rated: section 1 has one tap's 300 ml/s."""
    sizes = catalogue(TAPPED) + b"\1\1"
    return [
        whole("sheet, one tap", BATHS_OVER_BASINS + sizes, "house 283 152 7",
              "section 1 300 700 52", "section 2 144 360 20", "head 922 422 2"),
        refused("sheet, one tap over the limit", head(BATHS_OVER_BASINS, limit=699) + sizes, 13,
                {13}),
    ]


# The basin's hour sum is 50,000 with alpha 0.273: 5 x 80 x 0.273 is 109.2 l/h. The day is 16 l. On
# either line the hour sum is 33,333.3, up to 33,334, with alpha 0.243668: 5 x 60 x 0.243668 is 73.1
# l/h. The day is 9 l cold and 7 l hot.
BASIN_HOUSE = "house 110 16 1"


def basin():
    """As rated, with the sizes read under their first rows."""
    one, two = SIZES + b"\1", SIZES + b"\2"
    return [
        whole("sheet, basin on a wide main, size 1", BASIN + one, BASIN_HOUSE,
              "section 1 140 112 63", "head 913 413 1"),
        whole("sheet, basin on a wide main, size 2", BASIN + two, BASIN_HOUSE,
              "section 1 140 70 21", "head 871 371 1"),
        whole("sheet, basin on a wide main, size 1, limit 799, where the first row is 13",
              head(BASIN, limit=799) + one, BASIN_HOUSE, "section 1 140 112 63", "head 913 413 1"),
        whole("sheet, basin on a wide main, size 1, limit 112", head(BASIN, limit=112) + one,
              BASIN_HOUSE, "section 1 140 112 63", "head 913 413 1"),
        refused("sheet, basin on a wide main, size 1, limit 111", head(BASIN, limit=111) + one, 13,
                {13}),
        whole("sheet, basin on a wide main, size 2, limit 70", head(BASIN, limit=70) + two,
              BASIN_HOUSE, "section 1 140 70 21", "head 871 371 1"),
        refused("sheet, basin on a wide main, size 2, limit 69", head(BASIN, limit=69) + two, 13,
                {13}),
    ]


def first_rows():
    return [whole(f"sheet, {each.name}", SHORT_BASIN + catalogue((50, 1300) + each.rows) + b"\1",
                  BASIN_HOUSE, f"section 1 140 {each.velocity} {each.loss}",
                  f"head {850 + each.loss} {350 + each.loss} 1")
            for each in READINGS]


def under_and_over():
    """Under the greatest first rows too."""
    longest = section(head(MOST_FLOW, limit=3000), 1, length=5000)
    return [
        rated("sheet, own case beside a basin", OWN_BESIDE_BASIN + SIZES + b"\2\1", OWN_LINES[1],
              "section 2 140 112 63", OWN_LINES[2]),
        rated("sheet, own case over a basin", OWN_OVER_BASIN + SIZES + b"\2\1",
              "section 1 2053 1027 71", "section 2 140 112 63", "head 984 484 2"),
        refused("sheet, own case beside a basin, both size 1", OWN_BESIDE_BASIN + SIZES + b"\1\1",
                13, {13}),
        whole("sheet, three basins: one under the first row, at it and one over it",
              THREE_BASINS + AROUND_140 + b"\1\2\3", BASIN_HOUSE, "section 1 140 142 2027",
              "section 2 140 143 2041", "section 3 140 144 2043", "head 2893 2393 3"),
        whole("sheet, own case under the greatest first row", OWN + FARTHEST + b"\1", OWN_LINES[0],
              "section 1 2052 135 176", "head 1026 526 1"),
        rated("sheet, the greatest flow one under the first row, slope 65535",
              longest + one_under(42_646, 3000) + b"\1", "section 1 42646 3000 4259710",
              "head 4260560 4260060 1"),
    ]


def many():
    turns = bytes(1 + i % 3 for i in range(63))
    star = house([(0, 7, 30, 100, 600, 200)] * 63, {7: 71})
    row = house([inner(i) for i in range(62)] + [end(7, 80, 62)], {7: 71})
    return [
        rated("sheet, three sections", greedy() + GREEDY_SIZES + b"\1\2\2",
              "section 1 874 994 1242", "section 2 631 603 86", "section 3 606 584 143",
              "head 2383 1883 3"),
        refused("sheet, three sections, two sizes", greedy() + GREEDY_SIZES + b"\1\2", 12, {12}),
        rated("sheet, star of 63", star + LEVEL + turns, "head 902 402 3"),
        rated("sheet, chain of 63", row + LEVEL + turns, "section 63 2052 300 52",
              "head 2761 2261 63"),
        refused("sheet, chain of 63, 62 sizes", row + LEVEL + turns[:-1], 12, {12}),
        refused("sheet, chain of 63, a newline more", row + LEVEL + turns + b"\n", 12, {12}),
    ]


# Hot and cold lines

# The figures are those of line_vectors.py and rating_vectors.py.
HOT_LINES = ["house 2624 10650 444", "section 1 1206 603 28", "head 878 378 1"]
COLD_LINES = ["house 2385 7100 296", "section 1 1112 556 23", "head 873 373 1"]
HOT_INPUT = OWN_HOT + SIZES + b"\2"


def services():
    """A record of version 2 ends at its stated length too."""
    return [
        whole("sheet, own case, total in version 2", OWN_TOTAL + SIZES + b"\2", *OWN_LINES),
        whole("sheet, own case, cold", OWN_COLD + SIZES + b"\2", *COLD_LINES),
        whole("sheet, own case, hot", HOT_INPUT, *HOT_LINES),
        whole("sheet, own case, hot, size 1", OWN_HOT + SIZES + b"\1", HOT_LINES[0],
              "section 1 1206 965 88", "head 938 438 1"),
        refused("sheet, own case, total in version 2, size 1", OWN_TOTAL + SIZES + b"\1", 13, {13}),
        whole("sheet, one tap, hot", serving(BATHS_OVER_BASINS, 2) + catalogue(TAPPED) + b"\1\1",
              "house 200 84 4", "section 1 200 500 26", "section 2 100 250 13", "head 889 389 2"),
        refused("sheet, own case, hot, 40 bytes stating 40", head(OWN_HOT[:40], stated=40), 4),
        refused("sheet, own case, hot, 41 bytes stating 41", head(OWN_HOT[:41], stated=41), 4),
        refused("sheet, hot job stating 50", head(HOT_INPUT, stated=50), 4),
        refused("sheet, hot job stating 52", head(HOT_INPUT, stated=52), 4),
        refused("sheet, hot job stating 100", head(HOT_INPUT, stated=100), 1),
        refused("sheet, hot job cut at 50", HOT_INPUT[:50], 1),
        refused("sheet, hot job alone", OWN_HOT, 10, {10, 12}),
        refused("sheet, hot, one byte less", HOT_INPUT[:-1], 12, {12}),
        refused("sheet, hot, a newline more", HOT_INPUT + b"\n", 12, {12}),
        refused("sheet, service 3", serving(OWN, 3) + SIZES + b"\2", 3, {3}),
        refused("sheet, version 2 in 50 bytes", head(INPUT, version=2), 4),
        refused("sheet, version 1 in 51 bytes", head(HOT_INPUT, version=1), 4),
        refused("sheet, version 3", head(INPUT, version=3), 2, {2}),
        refused("sheet, own case, hot, 56 fixtures", section(HOT_INPUT, 1, fixtures=56), 9, {9}),
        whole("sheet, own case, hot, 57 fixtures", section(HOT_INPUT, 1, fixtures=57), *HOT_LINES),
        whole("sheet, basin on a wide main, cold, size 1", serving(BASIN, 1) + SIZES + b"\1",
              "house 74 9 1", "section 1 100 80 42", "head 892 392 1"),
        whole("sheet, basin on a wide main, hot, size 2", serving(BASIN, 2) + SIZES + b"\2",
              "house 74 7 1", "section 1 100 50 21", "head 871 371 1"),
    ]


def in_version_2(vector):
    """The same job in version 2 with service 0; the input begins with it."""
    room, zeros, data = vector.data
    stated = int.from_bytes(data[:4], "big")
    return vector._replace(name=f"{vector.name}, version 2",
                           data=(room, zeros, serving(data[:stated], 0) + data[stated:]))


def totals():
    return [in_version_2(each) for each in own_case() + negative_heads() + one_tap() + basin()
            + first_rows() + under_and_over() + many()]


def line_order():
    found = []
    for number in range(3, 14):
        parts = order_parts({number}, 2)
        data = parts["record"] + parts["sizes"] + bytes(parts["numbers"])
        found.append(refused(f"sheet, {number} alone, hot", data, number, {number}))
    return found


def random_sheets():
    rng = random.Random(2)
    found = []
    for i, count in enumerate([1, 2, 3, 5, 8, 13, 21, 34, 55], start=1):
        parts = random_parts(rng, count)
        data = parts["record"] + parts["sizes"] + bytes(parts["numbers"])
        found.append(rated(f"sheet, random house {i}, {count} sections", data))
    return found


def random_lines():
    rng = random.Random(3)
    found = []
    for i, count in enumerate([1, 2, 3, 5, 8, 13, 21, 34, 55], start=1):
        parts = random_parts(rng, count, i % 3)
        data = parts["record"] + parts["sizes"] + bytes(parts["numbers"])
        found.append(rated(f"sheet, random house {i}, {count} sections, {SERVICES[i % 3]}", data))
    return found


GROUPS = [
    ("sheet, own case", own_case), ("sheet, buffers", buffers),
    ("sheet, short inputs", short_inputs), ("sheet, stated lengths of jobs", stated_jobs),
    ("sheet, stated lengths of catalogues", stated_catalogues), ("sheet, size lists", sizes),
    ("sheet, long inputs", long_inputs), ("sheet, order", order), ("sheet, heads", negative_heads),
    ("sheet, one tap", one_tap), ("sheet, a basin on a wide main", basin),
    ("sheet, first rows", first_rows), ("sheet, under and over the first row", under_and_over),
    ("sheet, several sections", many),
    ("sheet, services", services), ("sheet, total in version 2", totals),
    ("sheet, version 2, order", line_order), ("sheet, random houses", random_sheets),
    ("sheet, random houses of lines", random_lines),
]


# The answers

def input_of(parts):
    """The bytes of the input; a buffer under 4,096 bytes gets no text."""
    _, zeros, data = parts
    return data + bytes(int.from_bytes(zeros, "big"))


def text_of(parts):
    room = int.from_bytes(parts[0], "big")
    lines = sheet.sheet(input_of(parts)) if room >= BUFFER else []
    return "".join(line + "\n" for line in lines)


def sheet_lines(parts):
    text = text_of(parts)
    return [f"sheet {len(text)}"] + text.splitlines()


def sheet_bytes(parts):
    """The text alone."""
    return text_of(parts).encode("ascii").hex()


def sheet_parts(data):
    room, zeros, front = data
    return Parts(int.from_bytes(room, "big"), front, length=int.from_bytes(zeros, "big"))


def number_in(lines):
    """The number that the text gives; 0 where it is none of a refusal."""
    word, _, number = (lines + [""])[1].partition(" ")
    return int(number) if word == "refused" else 0


CALLS = {"s": Call("sheet", sheet_parts, sheet_lines, sheet_bytes, number_in)}
