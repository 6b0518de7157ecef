"""Vectors for rating; vectors.py tells their lines."""

import itertools
import random
import struct

import rating
from edit import OWN, head, house, kind_of, put, section, serving
from first_rows import READINGS, SHORT_BASIN
from flow_vectors import (BASINS_OVER_BATHS, BATHS_OVER_BASINS, bath_and, end, flow_broken, inner,
                          random_house)
from houses import (BASIN, OWN_BESIDE_BASIN, OWN_COLD, OWN_HOT, OWN_OVER_BASIN, OWN_TOTAL, SERVICES,
                    TWO_ENDS, greedy)
from vector import Call, Vector, buffer_line, in_total, lent, listed, room_of, stored_by, words


def catalogue(*sizes):
    """The record of sizes given as (bore, price, row, row, ...); a row is
    (flow, velocity, slope)."""
    data = struct.pack(">BBB", 1, len(sizes), len(sizes[0]) - 2)
    for bore, price, *rows in sizes:
        data += struct.pack(">HH", bore, price)
        data += b"".join(struct.pack(">IHH", *row) for row in rows)
    return (4 + len(data)).to_bytes(4, "big") + data


# Document 01's own two sizes.
SIZE_1 = (40, 900, (1000, 800, 40), (3000, 2400, 300))
SIZE_2 = (50, 1300, (1000, 500, 12), (3000, 1500, 90))
SIZES = catalogue(SIZE_1, SIZE_2)

# Three sizes that read the same at every flow: over 100 decimetres, with k 3,
# they lose 13, 26 and 52 cm.
LEVEL = catalogue(*[(bore, 100, (1, velocity, slope), (1_000_000, velocity, slope))
                    for bore, velocity, slope in ((20, 900, 10), (30, 600, 20), (40, 300, 40))])


def exact_room(record):
    """The room of the result: 9 + 6 x S."""
    return 9 + 6 * (record + bytes(7))[6]


def rating_of(name, expect, record=OWN, sizes=SIZES, numbers=(2,), room=None, holds=None,
              lines=None):
    """A vector for rating; the room is that of the result unless given."""
    room = exact_room(record) if room is None else room
    parts = (room.to_bytes(2, "big"), record, sizes, bytes(numbers))
    return Vector(name, parts, expect, holds, "p", lines)


def refused(name, number, **parts):
    """A vector that one condition refuses."""
    return rating_of(name, number, holds={number}, **parts)


def rated(name, heads, *sections, **parts):
    """A vector that is rated, with its heads and, of each section, velocity
    and loss; no sections where only the heads are stated."""
    lines = [words("heads", heads)] + [
        words("rated", (i,) + each) for i, each in enumerate(sections, start=1)]
    return rating_of(name, 0, holds=set(), lines=lines, **parts)


# The own case

OWN_HEADS = (921, 421, 1)
OWN_SECTION = (1026, 71)


def own_case():
    return [
        rated("document 01's own case, size 2", OWN_HEADS, OWN_SECTION),
        refused("own case, size 1: velocity 1642", 13, numbers=[1]),
        rating_of("own case, size 1, room 14", 14, numbers=[1], room=14, holds={13, 14}),
        rated("own case, size 1, limit 1642", (1081, 581, 1), (1642, 231), numbers=[1],
              record=head(OWN, limit=1642)),
        rated("own case, k 2", (915, 415, 1), (1026, 65), record=head(OWN, k=2)),
        rated("own case, H 0: it plays no part", OWN_HEADS, OWN_SECTION, record=head(OWN, H=0)),
    ]


def rooms():
    return [rated(f"own case, room {room}", OWN_HEADS, OWN_SECTION, room=room)
            for room in (15, 16, 1000)] + [
        refused(f"own case, room {room}", 14, room=room) for room in (14, 9, 8, 1, 0)] + [
        rated("three sections, room 27", (2383, 1883, 3), record=greedy(), sizes=GREEDY_SIZES,
              numbers=[1, 2, 2], room=27),
        refused("three sections, room 26", 14, record=greedy(), sizes=GREEDY_SIZES,
                numbers=[1, 2, 2], room=26),
    ]


# 12

def lists():
    return [refused(f"list {numbers}", 12, numbers=numbers)
            for numbers in ([], [0], [3], [255], [2, 2], [2, 0], [1, 2, 1])] + [
        refused(f"two sections, list {numbers}", 12, record=TWO_ENDS, numbers=numbers)
        for numbers in ([2], [2, 0], [0, 2], [2, 3], [2, 2, 2])]


# 10 and 11

TWELVE = [(bore, bore, (1000, 500, 12), (3000, 1500, 90)) for bore in range(1, 13)]


def many_rows(count):
    return (50, 1300) + tuple((i, 1000, 54) for i in range(2000, 2000 + count))


def catalogue_shapes():
    one = catalogue(SIZE_2)
    return [refused(name, 10, sizes=sizes, numbers=[1]) for name, sizes in [
        ("catalogue version 2", put(SIZES, 4, 1, 2)),
        ("catalogue version 0", put(SIZES, 4, 1, 0)),
        ("length field 46", put(SIZES, 0, 4, 46)),
        ("length field 48", put(SIZES, 0, 4, 48)),
        ("length field 47 + 65536", put(SIZES, 0, 4, 47 + 65536)),
        ("length field 47 + 2^31", put(SIZES, 0, 4, 47 + 2 ** 31)),
    ]] + [
        # With counts out of range nothing says where a size stands, so that none is named.
        rating_of(name, 10, sizes=sizes, numbers=[1], holds={10, 12}) for name, sizes in [
        ("13 sizes", catalogue(*TWELVE, (13, 13, (1000, 500, 12), (3000, 1500, 90)))),
        ("R 65", catalogue(many_rows(65))),
        ("R 1", catalogue(SIZE_2[:3])),
    ]] + [rating_of(name, 10, sizes=sizes, numbers=[1]) for name, sizes in [
        ("empty catalogue", b""),
        ("6 bytes of a catalogue", SIZES[:6]),
        ("6 bytes stating 6", put(SIZES[:6], 0, 4, 6)),
        ("7 bytes of a catalogue", SIZES[:7]),
        ("7 bytes stating 7", put(SIZES[:7], 0, 4, 7)),
        ("no sizes", put(put(SIZES[:7], 0, 4, 7), 5, 1, 0)),
        ("R 1 where 2 rows stand", put(SIZES, 6, 1, 1)),
        ("R 0", put(SIZES, 6, 1, 0)),
        ("R 3 where 2 rows stand", put(SIZES, 6, 1, 3)),
        ("1 size where 2 stand", put(SIZES, 5, 1, 1)),
        ("255 sizes", put(SIZES, 5, 1, 255)),
        ("one byte more", SIZES + b"\0"),
        ("one byte more, stated", put(SIZES, 0, 4, 48) + b"\0"),
        ("one byte less", SIZES[:-1]),
        ("one byte less, stated", put(SIZES, 0, 4, 46)[:-1]),
    ]] + [
        rated("1 size", OWN_HEADS, OWN_SECTION, sizes=one, numbers=[1]),
        rated("12 sizes, the last", OWN_HEADS, OWN_SECTION, sizes=catalogue(*TWELVE),
              numbers=[12]),
        refused("12 sizes, number 13", 12, sizes=catalogue(*TWELVE), numbers=[13]),
        rated("R 64", OWN_HEADS, (1000, 71), sizes=catalogue(many_rows(64)), numbers=[1]),
    ]


# Bytes of the own catalogue: sizes start at 7 and 27, their rows at 11 and 31.

def catalogue_rules():
    return [refused(name, 11, sizes=put(SIZES, *edit)) for name, edit in [
        ("first bore 0", (7, 2, 0)), ("first bore 50", (7, 2, 50)), ("first bore 51", (7, 2, 51)),
        ("second bore 40", (27, 2, 40)), ("second bore 39", (27, 2, 39)),
        ("second bore 0", (27, 2, 0)),
        ("price 0", (9, 2, 0)), ("price 10001", (9, 2, 10_001)), ("price 65535", (9, 2, 65_535)),
        ("second price 0", (29, 2, 0)), ("second price 10001", (29, 2, 10_001)),
        ("first flow 0", (11, 4, 0)), ("first flow 3000", (11, 4, 3000)),
        ("second flow 1000", (19, 4, 1000)), ("second flow 999", (19, 4, 999)),
        ("second flow 1000001", (19, 4, 1_000_001)),
        ("second flow 2^32 - 1", (19, 4, 2 ** 32 - 1)),
        ("second size, second flow 1000", (39, 4, 1000)),
        ("second size, last flow 1000001", (39, 4, 1_000_001)),
        ("velocity 0", (15, 2, 0)), ("velocity falling by 1", (23, 2, 799)),
        ("second size, velocity 0", (35, 2, 0)), ("second size, velocity falling", (43, 2, 499)),
        ("slope 0", (17, 2, 0)), ("slope falling", (25, 2, 39)),
        ("second size, slope 0", (37, 2, 0)), ("second size, slope falling by 1", (45, 2, 11)),
    ]] + [rated(name, OWN_HEADS, OWN_SECTION, sizes=put(SIZES, *edit)) for name, edit in [
        ("first bore 1", (7, 2, 1)), ("first bore 49", (7, 2, 49)),
        ("second bore 41", (27, 2, 41)), ("second bore 65535", (27, 2, 65_535)),
        ("price 1", (9, 2, 1)), ("price 10000", (9, 2, 10_000)),
        ("second price 10000", (29, 2, 10_000)),
        ("first flow 1", (11, 4, 1)), ("first flow 2999", (11, 4, 2999)),
        ("second flow 1001", (19, 4, 1001)), ("second flow 1000000", (19, 4, 1_000_000)),
        ("first velocity 1", (15, 2, 1)), ("velocity not rising", (23, 2, 800)),
        ("last velocity 65535", (23, 2, 65_535)),
        ("first slope 1", (17, 2, 1)), ("slope not rising", (25, 2, 40)),
        ("last slope 65535", (25, 2, 65_535)),
    ]]


# A size read at a flow; the own case has flow 2,052

def read_from(name, heads, figures, *rows):
    return rated(name, heads, figures, sizes=catalogue((50, 1300) + rows), numbers=[1])


def flows_at_rows():
    last = (3000, 1400, 90)
    return [
        read_from("flow at the first row", (876, 376, 1), (700, 26), (2052, 700, 20), last),
        # Velocity 699.7 and slope 19.99.
        read_from("flow 1 under the first row", (876, 376, 1), (700, 26), (2053, 700, 20), last),
        # Velocity 1.4 and slope 0.04, up to 1: 1.3.
        read_from("flow far under the first row", (852, 352, 1), (2, 2),
                  (999_999, 700, 20), (1_000_000, 1400, 90)),
        read_from("flow at the last row", (883, 383, 1), (800, 33), (2051, 700, 20),
                  (2052, 800, 25)),
        read_from("flow at a middle row", (889, 389, 1), (900, 39), (1000, 500, 12),
                  (2052, 900, 30), (3000, 1500, 90)),
        read_from("flow halfway, each up", (865, 365, 1), (501, 15), (2051, 500, 10),
                  (2053, 501, 11)),
        read_from("flow between rows far apart", (1027, 527, 1), (136, 177), (1, 1, 1),
                  (1_000_000, 65_535, 65_535)),
        read_from("flow between equal rows", (889, 389, 1), (700, 39), (1000, 700, 30),
                  (3000, 700, 30)),
        read_from("flow in the second of three lines", (921, 421, 1), (1026, 71), (500, 1, 1),
                  (1000, 500, 12), (3000, 1500, 90), (4000, 2400, 900)),
        refused("flow 1 over the last row", 13, numbers=[1],
                sizes=catalogue((50, 1300, (1000, 500, 12), (2051, 1026, 54)))),
        refused("flow far over the last row", 13, numbers=[1],
                sizes=catalogue((50, 1300, (1, 1, 1), (2, 1, 1)))),
        refused("a wider size that ends earlier", 13,
                sizes=catalogue(SIZE_1, (50, 1300, (1, 1, 1), (2, 1, 1)))),
        # Velocity 1,500.3; with the next table 1,500, and slope 15: 19.5.
        refused("first row over the limit, and the line from zero", 13, numbers=[1],
                sizes=catalogue((50, 1300, (2053, 1501, 20), (3000, 1600, 90)))),
        read_from("first row over the limit, the line from zero at it", (870, 370, 1), (1500, 20),
                  (2736, 2000, 20), (3000, 2100, 90)),
    ]


def limits():
    return [
        rated("velocity equal to the limit", OWN_HEADS, OWN_SECTION, record=head(OWN, limit=1026)),
        refused("velocity one over the limit", 13, record=head(OWN, limit=1025)),
        refused("velocity 1641.6 over the limit 1641", 13, numbers=[1],
                record=head(OWN, limit=1641)),
        refused("limit 1", 13, record=head(OWN, limit=1)),
        refused("two sections, only the first over the limit", 13, record=pair(60, 20),
                numbers=[1, 2]),
        refused("two sections, only the second over the limit", 13, record=pair(20, 60),
                numbers=[2, 1]),
    ]


# One tap

# Over 100 decimetres, with k 3, a slope of 40 loses 52, of 28 37, of 20 26, of 15 20 and of 10 13
# cm. At 300 ml/s this size has velocity 700 and slope 40, at 240 it would have 580 and 28. 144 is
# under its first row: velocity 360 and slope 14.4, up to 15. So is 100: velocity 250 and slope 10.
TAPPED = (40, 300, (200, 500, 20), (400, 900, 60))
ENDS_AT_299 = (20, 100, (200, 500, 20), (299, 698, 40))
ENDS_AT_300 = (30, 200, (200, 500, 20), (300, 700, 40))


def one_tap():
    """The flows are 300 and 144 with the bath above, 300 and 300 with it below; by document 01
    alone section 1 would have 240. Of bath_and see flow_vectors.py: 300, 300, 301 and 326 with 95
    basins, and with 96 section 1 has 301."""
    above = {"record": BATHS_OVER_BASINS, "sizes": catalogue(ENDS_AT_299, ENDS_AT_300, TAPPED)}
    below = dict(above, record=BASINS_OVER_BATHS)
    figures = ((700, 52), (360, 20))
    return [
        rated("one tap: velocity and loss", (922, 422, 2), *figures, numbers=[3, 3], **above),
        rated("one tap: velocity equal to the limit", (922, 422, 2), *figures, numbers=[3, 3],
              **dict(above, record=head(BATHS_OVER_BASINS, limit=700))),
        refused("one tap: velocity one over the limit", 13, numbers=[3, 3],
                **dict(above, record=head(BATHS_OVER_BASINS, limit=699))),
        rated("one tap equal to the last row", (922, 422, 2), *figures, numbers=[2, 1], **above),
        refused("one tap one over the last row", 13, numbers=[1, 1], **above),
        rated("one tap of a kind below, equal to the last row", (954, 454, 2), (700, 52),
              (700, 52), numbers=[2, 2], **below),
        refused("one tap of a kind below, one over the last row", 13, numbers=[1, 2], **below),
        rated("one tap and an average of 300", (964, 464, 4), (700, 52), (700, 52), (702, 54),
              (752, 60), numbers=[2, 2, 3, 3], **dict(above, record=bath_and(95))),
        refused("one tap and an average of 301", 13, numbers=[2, 2, 3, 3],
                **dict(above, record=bath_and(96))),
    ]


# A basin on a wide main

# At 140 ml/s size 1 has velocity 140 x 800 / 1,000 = 112 and slope 140 x 40 / 1,000 = 5.6, up to 6,
# which loses 6 x 800 x 13 / 1,000 = 62.4, up to 63 cm; size 2 has velocity 70 and slope 1.68, up to
# 2: 20.8, up to 21 cm. To that come 850 cm. The first rows themselves have velocities 800 and 500
# and lose 416 and 125 cm. The lines through both rows, carried on below, would have the same
# velocities, and slopes under zero.

def basin():
    return [
        rated("basin on a wide main, size 1", (913, 413, 1), (112, 63), record=BASIN, numbers=[1]),
        rated("basin on a wide main, size 2", (871, 371, 1), (70, 21), record=BASIN, numbers=[2]),
        rating_of("basin on a wide main, size 1, in bytes", 0, record=BASIN, numbers=[1],
                  holds=set(), lines=["rate 0 " "00000391" "0000019d" "01" "0070" "0000003f"]),
        # 57.6 and 19.2.
        rated("basin on a wide main, k 2, size 1", (908, 408, 1), (112, 58), numbers=[1],
              record=head(BASIN, k=2)),
        rated("basin on a wide main, k 2, size 2", (870, 370, 1), (70, 20), numbers=[2],
              record=head(BASIN, k=2)),
        rated("basin on a wide main, size 1, limit 799, where the first row is 13", (913, 413, 1),
              (112, 63), record=head(BASIN, limit=799), numbers=[1]),
        rated("basin on a wide main, size 1, limit 112", (913, 413, 1), (112, 63), numbers=[1],
              record=head(BASIN, limit=112)),
        refused("basin on a wide main, size 1, limit 111", 13, record=head(BASIN, limit=111),
                numbers=[1]),
        rated("basin on a wide main, size 2, limit 499, where the first row is 13", (871, 371, 1),
              (70, 21), record=head(BASIN, limit=499), numbers=[2]),
        rated("basin on a wide main, size 2, limit 70", (871, 371, 1), (70, 21), numbers=[2],
              record=head(BASIN, limit=70)),
        refused("basin on a wide main, size 2, limit 69", 13, record=head(BASIN, limit=69),
                numbers=[2]),
    ]


def first_rows():
    """Each with its velocity for a limit, and refused with a limit one less, where that is not 0,
    which 3 refuses."""
    found = []
    for each in READINGS:
        parts = {"sizes": catalogue((50, 1300) + each.rows), "numbers": [1]}
        found.append(rated(f"{each.name}, limit {each.velocity}",
                           (850 + each.loss, 350 + each.loss, 1), (each.velocity, each.loss),
                           record=head(SHORT_BASIN, limit=each.velocity), **parts))
        if each.velocity > 1:
            found.append(refused(f"{each.name}, limit {each.velocity - 1}", 13,
                                 record=head(SHORT_BASIN, limit=each.velocity - 1), **parts))
    return found


# The greatest flow, 42,646 ml/s.
MOST_FLOW = house([end(8, 4000)], {8: 4000})

# The greatest first flow, with the greatest velocity and slope: no row can follow one at 1,000,000.
FARTHEST = catalogue((50, 1300, (999_999, 65_535, 65_535), (1_000_000, 65_535, 65_535)))
TOO_FAR = catalogue((50, 1300, (1_000_000, 65_535, 65_535), (1_000_000, 65_535, 65_535)))


def one_under(flow, velocity):
    """A size whose first row is one over this flow, with the greatest slope."""
    return catalogue((50, 1300, (flow + 1, velocity, 65_535), (flow + 2, velocity, 65_535)))


def farthest():
    """The own case has velocity and slope 134.5, up to 135, which loses 175.5 cm, the greatest flow
    2,794.8, up to 2,795: 3,633.5. One under the first row they have velocities 1,499.3 and 2,999.9,
    and slopes 65,503.1 and 65,533.5, up to 65,504 and 65,534, of which 1 loses 65 cm over 5,000
    decimetres."""
    return [
        rated("own case under the greatest first row", (1026, 526, 1), (135, 176), numbers=[1],
              sizes=FARTHEST),
        rated("the greatest flow under the greatest first row", (4484, 3984, 1), (2795, 3634),
              record=head(MOST_FLOW, limit=2795), sizes=FARTHEST, numbers=[1]),
        refused("the greatest flow under the greatest first row, limit 2794", 13,
                record=head(MOST_FLOW, limit=2794), sizes=FARTHEST, numbers=[1]),
        refused("first flow 1000000", 11, sizes=TOO_FAR, numbers=[1]),
        rated("own case one under the first row, slope 65535", (4_258_610, 4_258_110, 1),
              (1500, 4_257_760), record=section(OWN, 1, length=5000), sizes=one_under(2052, 1500),
              numbers=[1]),
        rated("the greatest flow one under the first row, slope 65535", (4_260_560, 4_260_060, 1),
              (3000, 4_259_710), record=section(head(MOST_FLOW, limit=3000), 1, length=5000),
              sizes=one_under(42_646, 3000), numbers=[1]),
    ]


# A size whose first row is under 140 ml/s, and document 01's size 1. At 140 the first has velocity
# 560 and slope 120, which loses 156 cm over 100 decimetres, the second velocity 112 and slope 6,
# which loses 7.8 cm.
NARROW_AND_WIDE = catalogue((20, 300, (100, 400, 50), (300, 1200, 400)), SIZE_1)

# Sizes whose first row is one over 140 ml/s, at it, and one under it.
AROUND_140 = catalogue(*[(bore, 1300) + each.rows
                         for bore, each in zip((20, 30, 40), READINGS[:3])])

# Basins at the pump, of 1 resident in all, and one behind a section without a kind.
THREE_BASINS = house([end(11, 1)] * 3, {11: 1})
BASIN_BEHIND = house([inner(), end(11, 1, 1)], {11: 1})


def under_and_over():
    """Sections under the first row of their size, and others that are not. At 2,053 ml/s, the flow
    of the own section over the basin, size 2 has velocity 1,026.5 and slope 53.07, up to 54: 70.2
    cm."""
    beside, over = {"record": OWN_BESIDE_BASIN}, {"record": OWN_OVER_BASIN}
    behind = {"record": BASIN_BEHIND, "sizes": NARROW_AND_WIDE}
    return [
        rated("own case beside a basin", OWN_HEADS, OWN_SECTION, (112, 63), numbers=[2, 1],
              **beside),
        rated("own case beside a basin, both size 2", OWN_HEADS, OWN_SECTION, (70, 21),
              numbers=[2, 2], **beside),
        rated("own case beside a basin 8 higher: they tie", OWN_HEADS, OWN_SECTION, (112, 63),
              record=section(OWN_BESIDE_BASIN, 2, elevation=608), numbers=[2, 1]),
        rated("own case beside a basin 9 higher: it dictates", (922, 422, 2), OWN_SECTION,
              (112, 63), record=section(OWN_BESIDE_BASIN, 2, elevation=609), numbers=[2, 1]),
        refused("own case beside a basin, both size 1", 13, numbers=[1, 1], **beside),
        rated("own case over a basin", (984, 484, 2), (1027, 71), (112, 63), numbers=[2, 1],
              **over),
        rated("own case over a basin, both size 2", (942, 442, 2), (1027, 71), (70, 21),
              numbers=[2, 2], **over),
        rated("under the first row of a size, then over that of another", (1014, 514, 2),
              (112, 8), (560, 156), numbers=[2, 1], **behind),
        rated("over the first row of a size, then under that of another", (1014, 514, 2),
              (560, 156), (112, 8), numbers=[1, 2], **behind),
        rated("three basins: one under the first row, at it and one over it", (2893, 2393, 3),
              (142, 2027), (143, 2041), (144, 2043), record=THREE_BASINS, sizes=AROUND_140,
              numbers=[1, 2, 3]),
    ]


# Heads

def pair(first, second):
    """Two ends of kind 7 at the pump; 20 fixtures flow 979, 60 flow 1739. Size 2 at 979, under its
    first row, has velocity 489.5 and slope 11.7, up to 12."""
    return head(house([end(7, first), end(7, second)], {7: 71}), limit=1300)


def low(elevation, free=200, meter=50):
    return head(section(OWN, 1, elevation=elevation, free=free), meter=meter)


def pump_heads():
    return [rated(f"guaranteed head {given}", (921, pump, 1), OWN_SECTION,
                  record=head(OWN, G=given))
            for given, pump in ((0, 921), (920, 1), (921, 0), (922, 0), (6000, 0))] + [
        rated("required head 0", (0, 0, 1), OWN_SECTION, record=low(-321)),
        rated("required head -1", (-1, 0, 1), OWN_SECTION, record=low(-322)),
        rated("required head -1, guaranteed 0", (-1, 0, 1), OWN_SECTION,
              record=head(low(-322), G=0)),
        rated("required head 1, guaranteed 0", (1, 1, 1), OWN_SECTION,
              record=head(low(-320), G=0)),
        rated("end far below the pump", (-929, 0, 1), OWN_SECTION, record=low(-1000, 0, 0)),
        rated("the least required head", (-999, 0, 1), (900, 1), sizes=LEVEL, numbers=[1],
              record=section(low(-1000, 0, 0), 1, length=1)),
        rated("the greatest elevation, free head and meter loss", (8071, 7571, 1), OWN_SECTION,
              record=low(6000, 1000, 1000)),
        rated("the greatest loss", (4_260_625, 4_260_125, 1), (1500, 4_259_775), numbers=[1],
              sizes=catalogue((50, 1300, (2052, 1500, 65_535), (3000, 1500, 65_535))),
              record=section(OWN, 1, length=5000)),
        rated("all ends below the pump", (-237, 0, 2), (900, 13), (900, 13), sizes=LEVEL,
              numbers=[1, 1], record=ends(-600, -500)),
    ]


def ends(*elevations):
    """Ends at the pump, each with 30 fixtures and free head 200."""
    return house([(0, 7, 30, 100, elevation, 200) for elevation in elevations], {7: 30})


def tree(*parts):
    """Sections given as (parent, elevation); one that nobody has for a parent
    has 50 fixtures and free head 200, others have no kind."""
    above = {parent for parent, _ in parts}
    return house([(parent, 0, 0, 100, elevation, 0) if number in above
                  else (parent, 7, 50, 100, elevation, 200)
                  for number, (parent, elevation) in enumerate(parts, start=1)], {7: 40})


def level(name, heads, record, numbers):
    """A vector with the level sizes, whose figures are plain."""
    figures = {1: (900, 13), 2: (600, 26), 3: (300, 52)}
    return rated(name, heads, *[figures[each] for each in numbers], record=record, sizes=LEVEL,
                 numbers=numbers)


def dictating():
    short = house([(0, 0, 0, 1, 600, 0), (1, 0, 0, 1, 600, 0), (2, 7, 80, 1, 600, 200)], {7: 71})
    return [
        level("two equal ends: the first", (863, 363, 1), ends(600, 600), [1, 1]),
        level("two ends tie by other losses: the first", (876, 376, 1), ends(600, 613), [2, 1]),
        level("the second end 1 higher", (877, 377, 2), ends(600, 614), [2, 1]),
        level("the second end 1 lower", (876, 376, 1), ends(600, 612), [2, 1]),
        level("ends 2 and 3 tie over end 1", (873, 373, 2), ends(600, 610, 610), [1, 1, 1]),
        level("ends 1 and 3 tie over end 2", (873, 373, 1), ends(610, 600, 610), [1, 1, 1]),
        level("the last of three ends", (902, 402, 3), ends(600, 600, 600), [1, 2, 3]),
        level("two ends under a section tie: the lower number", (876, 376, 2),
              tree((0, 600), (1, 600), (1, 600)), [1, 1, 1]),
        level("a section without a kind dictates", (6063, 5563, 1),
              tree((0, 6000), (1, 600), (1, 600)), [1, 1, 1]),
        level("a section without a kind ties with its ends", (876, 376, 1),
              tree((0, 813), (1, 600), (1, 600)), [1, 1, 1]),
        level("a section without a kind 1 lower than its ends", (876, 376, 2),
              tree((0, 812), (1, 600), (1, 600)), [1, 1, 1]),
        level("the second of three in a row dictates, without a kind", (2089, 1589, 2),
              tree((0, 600), (1, 2000), (2, 600)), [1, 2, 3]),
        level("three in a row: losses add up", (941, 441, 3),
              tree((0, 600), (1, 600), (2, 600)), [1, 2, 3]),
        level("section 4 under 1, section 3 under 2", (928, 428, 3),
              tree((0, 600), (0, 600), (2, 600), (1, 600)), [1, 3, 2, 2]),
        rated("three in a row, each loss up", (853, 353, 3), (900, 1), (900, 1), (900, 1),
              record=short, sizes=LEVEL, numbers=[1, 1, 1]),
        rated("ends of 20 and 60 fixtures", (904, 404, 2), (490, 16), (870, 54),
              record=pair(20, 60), numbers=[2, 2]),
    ]


# Houses

GREEDY_SIZES = catalogue((15, 300, (100, 300, 30), (3000, 2900, 900)),
                         (20, 420, (100, 200, 12), (3000, 2400, 300)),
                         (25, 700, (100, 120, 5), (3000, 1700, 110)))


def three_sections():
    """Every list of three sizes rates, whether or not it suits H."""
    stated = {(1, 2, 2): [words("heads", (2383, 1883, 3)), "rated 1 994 1242", "rated 2 603 86",
                          "rated 3 584 143"]}
    return [rating_of(f"three sections, sizes {listed_in_order(numbers)}", 0, holds=set(),
                      record=greedy(), sizes=GREEDY_SIZES, numbers=numbers,
                      lines=stated.get(numbers))
            for numbers in itertools.product((1, 2, 3), repeat=3)]


def listed_in_order(numbers):
    return " ".join(str(number) for number in numbers)


def long_houses():
    """In the chain section 20 has the losses of all above it: seven of 13,
    seven of 26 and six of 52 cm are 585."""
    turns = [1 + i % 3 for i in range(20)]
    row = house([inner(i) for i in range(19)] + [end(7, 80, 19)], {7: 71})
    return [
        level("chain of 20", (1435, 935, 20), row, turns),
        level("star of 20, higher by 1 each", (919, 419, 18),
              house([(0, 7, 30, 100, 600 + i, 200) for i in range(20)], {7: 71}), turns),
        level("star of 20, all alike", (863, 363, 1),
              house([(0, 7, 30, 100, 600, 200)] * 20, {7: 71}), [1] * 20),
    ]


# Hot and cold lines

# The own case's lines flow 1,206 and 1,112 ml/s, as line_vectors.py derives. Size 2 at 1,206 is 206
# of the 2,000 between its rows: velocity 603 and slope 20.034, up to 21, which loses 27.3, up to 28
# cm. Size 1 has velocity 964.8, up to 965, and slope 66.78, up to 67: 87.1, up to 88 cm. At 1,112
# size 2 has 556 and slope 16.368, up to 17: 22.1, up to 23 cm; size 1 has velocity 889.6, up to
# 890, and slope 54.56, up to 55: 71.5, up to 72 cm. To that come 850 cm, and G is 500.

def ending_at(flow):
    """A size whose last row is at this flow, of velocity 800 and slope 30 there."""
    return catalogue((50, 1300, (1000, 800, 30), (flow, 800, 30)))


def services():
    taps = {"record": serving(BATHS_OVER_BASINS, 2)}
    return [
        rated("own case, total in version 2, size 2", OWN_HEADS, OWN_SECTION, record=OWN_TOTAL),
        refused("own case, total in version 2, size 1", 13, record=OWN_TOTAL, numbers=[1]),
        rated("own case, cold, size 2", (873, 373, 1), (556, 23), record=OWN_COLD),
        rated("own case, cold, size 1", (922, 422, 1), (890, 72), record=OWN_COLD, numbers=[1]),
        rated("own case, hot, size 2", (878, 378, 1), (603, 28), record=OWN_HOT),
        rated("own case, hot, size 1", (938, 438, 1), (965, 88), record=OWN_HOT, numbers=[1]),
        rating_of("own case, hot, size 2, in bytes", 0, record=OWN_HOT, holds=set(),
                  lines=["rate 0 " "0000036e" "0000017a" "01" "025b" "0000001c"]),
        rated("own case, hot, size 1, limit 965", (938, 438, 1), (965, 88), numbers=[1],
              record=head(OWN_HOT, limit=965)),
        refused("own case, hot, size 1, limit 964", 13, numbers=[1],
                record=head(OWN_HOT, limit=964)),
        rated("own case, hot, the last row at 1206", (889, 389, 1), (800, 39), numbers=[1],
              record=OWN_HOT, sizes=ending_at(1206)),
        refused("own case, hot, the last row at 1205", 13, numbers=[1], record=OWN_HOT,
                sizes=ending_at(1205)),
        rated("own case, cold, the last row at 1112", (889, 389, 1), (800, 39), numbers=[1],
              record=OWN_COLD, sizes=ending_at(1112)),
        refused("own case, cold, the last row at 1111", 13, numbers=[1], record=OWN_COLD,
                sizes=ending_at(1111)),
        refused("own case, total in version 2, the last row at 2051", 13, numbers=[1],
                record=OWN_TOTAL, sizes=ending_at(2051)),
        # 200 and 100 ml/s, which by the total norms are 300 and 144.
        rated("one tap, hot", (889, 389, 2), (500, 26), (250, 13), sizes=catalogue(TAPPED),
              numbers=[1, 1], **taps),
        refused("one tap, hot, the last row at 199", 13, numbers=[1, 1], **taps,
                sizes=catalogue((20, 100, (100, 500, 20), (199, 698, 40)))),
        rated("one tap, hot, the last row at 200", (928, 428, 2), (700, 52), (500, 26),
              sizes=catalogue((20, 100, (100, 500, 20), (200, 700, 40))), numbers=[1, 1], **taps),
        rated("own case, hot, room 15", (878, 378, 1), (603, 28), record=OWN_HOT, room=15),
        refused("own case, hot, room 14", 14, record=OWN_HOT, room=14),
        # 100 ml/s: size 1 has velocity 80 and slope 4, which loses 41.6 cm, size 2 velocity 50 and
        # slope 1.2, up to 2: 20.8.
        rated("basin on a wide main, cold, size 1", (892, 392, 1), (80, 42), numbers=[1],
              record=serving(BASIN, 1)),
        rated("basin on a wide main, cold, size 2", (871, 371, 1), (50, 21), numbers=[2],
              record=serving(BASIN, 1)),
        rated("basin on a wide main, hot, size 1, limit 80", (892, 392, 1), (80, 42), numbers=[1],
              record=head(serving(BASIN, 2), limit=80)),
        refused("basin on a wide main, hot, size 1, limit 79", 13, numbers=[1],
                record=head(serving(BASIN, 2), limit=79)),
        rated("basin on a wide main, hot, size 2, limit 50", (871, 371, 1), (50, 21), numbers=[2],
              record=head(serving(BASIN, 2), limit=50)),
        refused("basin on a wide main, hot, size 2, limit 49", 13, numbers=[2],
                record=head(serving(BASIN, 2), limit=49)),
    ]


def totals():
    """The same in version 2, of the vectors above."""
    return in_total(own_case() + rooms() + lists() + flows_at_rows() + limits() + one_tap()
                    + basin() + first_rows() + farthest() + under_and_over() + pump_heads()
                    + dictating() + three_sections())


# Order

def order_parts(numbers, service=None):
    """Parts for which exactly these numbers' conditions hold. 13 is not to be
    had beside 1 to 12."""
    sizes = put(SIZES, 4, 1, 2) if 10 in numbers else SIZES
    sizes = put(sizes, 29, 2, 0) if 11 in numbers else sizes
    chosen = [1, 1] if 13 in numbers else [2, 2]
    record = flow_broken(numbers, service)
    return {
        "record": head(record, limit=1) if 13 in numbers else record,
        "sizes": sizes,
        "numbers": [0, 2] if 12 in numbers else chosen,
        "room": 20 if 14 in numbers else 21,
    }


ORDER = [{number} for number in range(1, 15)] + [
    {1, 10}, {1, 12}, {1, 14}, {2, 11}, {3, 10}, {4, 12}, {5, 10}, {6, 11}, {7, 12}, {8, 10},
    {9, 10}, {9, 11}, {9, 12}, {9, 14}, {10, 11}, {10, 12}, {10, 14}, {11, 12}, {11, 14},
    {12, 14}, {10, 11, 12, 14}, {9, 10, 11, 12, 14}, {1, 2, 3, 4, 5, 6, 7, 8, 9, 10, 11, 12, 14},
]


def order():
    """14 comes before 13; otherwise the least number is the answer."""
    return [rating_of(listed(each), min(each), holds=each, **order_parts(each))
            for each in ORDER] + [
        rating_of("13 and 14", 14, holds={13, 14}, **order_parts({13, 14})),
        rating_of("nothing lent at all", 1, record=b"", sizes=b"", numbers=[], room=0),
        rating_of("no job", 1, record=b"", room=15),
    ]


def line_order():
    sets = [each for each in ORDER if 2 not in each]
    return [rating_of(f"{listed(each)}, {SERVICES[service]}", min(each), holds=each,
                      **order_parts(each, service))
            for each, service in zip(sets, itertools.cycle(SERVICES))] + [
        rating_of("13 and 14, hot", 14, holds={13, 14}, **order_parts({13, 14}, 2)),
        refused("service 3", 3, record=serving(OWN, 3)),
        rating_of("version 2 in 50 bytes", 4, record=head(OWN, version=2)),
        refused("own case, 70 fixtures, version 2", 9, record=section(OWN_TOTAL, 1, fixtures=70)),
        rated("own case, 70 fixtures, hot", (878, 378, 1), (603, 28),
              record=section(OWN_HOT, 1, fixtures=70)),
        refused("own case, 56 fixtures, hot", 9, record=section(OWN_HOT, 1, fixtures=56)),
    ]


# Random houses

def random_rows(rng, count):
    """Rows that serve every flow of the house at every limit from 2,000 on."""
    flows = sorted(rng.sample(range(100, 20_000), count - 1)) + [200_000]
    columns = [sorted(rng.randint(1, most) for _ in range(count)) for most in (2000, 900)]
    return tuple(zip(flows, *columns))


def random_catalogue(rng):
    rows, bores = rng.randint(2, 5), sorted(rng.sample(range(10, 200), rng.randint(1, 5)))
    return catalogue(*[(bore, rng.randint(1, 10_000)) + random_rows(rng, rows)
                       for bore in bores])


def random_measures(rng, record):
    for i in range(1, record[6] + 1):
        kind = kind_of(record, i)
        record = section(record, i, length=rng.randint(1, 600), elevation=rng.randint(-1000, 3000),
                         free=rng.randint(0, 1000) if kind else 0)
    return head(record, k=rng.randint(2, 3), meter=rng.randint(0, 1000), G=rng.randint(0, 6000),
                limit=rng.randint(2000, 3000))


def random_parts(rng, count, service=None):
    """In version 2 where a service is given."""
    sizes = random_catalogue(rng)
    record = (random_house(rng, count) if service is None
              else serving(random_house(rng, count, service), service))
    return {"record": random_measures(rng, record), "sizes": sizes,
            "numbers": [rng.randint(1, sizes[5]) for _ in range(count)]}


def random_houses():
    rng = random.Random(1)
    counts = [1, 2, 3, 4, 5] + [rng.randint(6, 40) for _ in range(15)]
    return [rating_of(f"random house {i}, {count} sections", 0, holds=set(),
                      **random_parts(rng, count))
            for i, count in enumerate(counts, start=1)]


def random_lines():
    rng = random.Random(2)
    counts = [1, 2, 3] + [rng.randint(4, 40) for _ in range(8)] + [63]
    return [rating_of(f"random house {i}, {count} sections, {SERVICES[service]}", 0, holds=set(),
                      **random_parts(rng, count, service))
            for i, (count, service) in enumerate(zip(counts, itertools.cycle(SERVICES)), start=1)]


GROUPS = [
    ("rating, own case", own_case), ("rating, room", rooms), ("rating, lists", lists),
    ("rating, shapes of catalogues", catalogue_shapes),
    ("rating, rules of catalogues", catalogue_rules), ("rating, flows at rows", flows_at_rows),
    ("rating, limits", limits), ("rating, one tap", one_tap),
    ("rating, a basin on a wide main", basin), ("rating, first rows", first_rows),
    ("rating, the greatest first rows", farthest),
    ("rating, under and over the first row", under_and_over), ("rating, pump heads", pump_heads),
    ("rating, dictating sections", dictating), ("rating, three sections", three_sections),
    ("rating, long houses", long_houses), ("rating, services", services),
    ("rating, total in version 2", totals), ("rating, order", order),
    ("rating, version 2, order", line_order), ("rating, random houses", random_houses),
    ("rating, random houses of lines", random_lines),
]


# The answers

def rate_lines(parts):
    room, *rest = parts
    number, result = rating.rate(*rest, room_of(room))
    answer = [buffer_line("rate", (number, result), room_of(room))]
    if number != 0:
        return answer
    heads, sections = rating.figures(*rest)
    return answer + [words("heads", heads)] + [
        words("rated", (i,) + each[1:]) for i, each in enumerate(sections, start=1)]


CALLS = {"p": Call("rate", lent, rate_lines, stored_by(rating.rate))}
