"""Vectors for choosing; vectors.py tells their lines.

A line `l` has a result only where one list alone is cheapest. Where `chosen` or
`costing` states the cost, and the list, they are worked out by hand; `found`
leaves them to the model. Every vector has its number written down; which random
houses have no list was read from the model.
"""

import functools
import itertools
import random

import catalogue as catalogues
import choosing
import heads
import job
import rating_vectors
from edit import OWN, head, house, kind_of, people, put, section, serving
from first_rows import READINGS, SHORT_BASIN
from flow_vectors import (BATHS_OVER_BASINS, CHILD_ABOVE, TAP_OVER_256, chain_of_kinds,
                          comb_of_kinds, end, flow_broken, halving_of_kinds, star_of_kinds)
from houses import (BASIN, OWN_BESIDE_BASIN, OWN_COLD, OWN_HOT, OWN_OVER_BASIN, OWN_TOTAL, SERVICES,
                    greedy, star)
from rating_vectors import (AROUND_140, BASIN_BEHIND, ENDS_AT_299, ENDS_AT_300, FARTHEST,
                            GREEDY_SIZES, LEVEL, MOST_FLOW, NARROW_AND_WIDE, SIZE_1, SIZE_2, SIZES,
                            TAPPED, THREE_BASINS, catalogue, low, one_under, pair, tree)
from vector import Call, Parts, Vector, buffer_after, in_total, listed, room_of

FILL = 0x5a
MOST_WORK = 1_792_256


def exact_room(record):
    """The room of the result: 4 + S."""
    return 4 + (record + bytes(7))[6]


def exact_work(record):
    """The workspace: 4 x (S + 1) x (H + 1,001)."""
    record = record + bytes(14)
    return 4 * (record[6] + 1) * (int.from_bytes(record[12:14], "big") + 1001)


def choosing_of(name, expect, record=OWN, sizes=SIZES, room=None, work=None, fill=FILL,
                holds=None, lines=None, letter="l"):
    """A vector for choosing; room and workspace are just enough unless given."""
    room = exact_room(record) if room is None else room
    work = exact_work(record) if work is None else work
    parts = (room.to_bytes(2, "big"), work.to_bytes(4, "big") + bytes([fill]), record, sizes)
    return Vector(name, parts, expect, holds, letter, lines)


def buffer_of(vector, result=b""):
    """The digits of the buffer that begins with these bytes."""
    room, work = vector.data[:2]
    return (result + work[4:] * (room_of(room) - len(result))).hex()


def refusal(name, number, **parts):
    """A vector that is refused, with what is left of buffer and workspace."""
    vector = choosing_of(name, number, **parts)
    kept = " kept" if number < 16 else ""
    return vector._replace(lines=[f"choose {number} {buffer_of(vector)}{kept}"])


def refused(name, number, **parts):
    """A vector that one condition refuses."""
    return refusal(name, number, holds={number}, **parts)


def chosen(name, cost, numbers, **parts):
    """A vector with its cost and its only cheapest list."""
    vector = choosing_of(name, 0, holds=set(), **parts)
    result = cost.to_bytes(4, "big") + bytes(numbers)
    return vector._replace(lines=[f"choose 0 {buffer_of(vector, result)}"])


def costing(name, cost, **parts):
    """A vector with its cost, which several lists have."""
    return choosing_of(name, 0, holds=set(), letter="k", lines=[f"choose 0 {cost}"], **parts)


def found(name, **parts):
    """A vector whose cost and list are the model's."""
    vector = choosing_of(name, 0, holds=set(), **parts)
    return vector if choice_of(vector.data).count == 1 else vector._replace(letter="k")


# The own case

def own_case():
    wide = head(OWN, limit=1642)
    return [
        chosen("document 01's own case", 130_000, [2]),
        chosen("own case, H 921", 130_000, [2], record=head(OWN, H=921)),
        refused("own case, H 920", 16, record=head(OWN, H=920)),
        refusal("own case, result space 4 and no workspace", 14, room=4, work=0, holds={14, 15}),
        # Size 1 has velocity 1,642 and loss 231.
        chosen("own case, limit 1642", 90_000, [1], record=wide),
        chosen("own case, limit 1642, H 1081", 90_000, [1], record=head(wide, H=1081)),
        chosen("own case, limit 1642, H 1080", 130_000, [2], record=head(wide, H=1080)),
        chosen("own case, limit 1641", 130_000, [2], record=head(OWN, limit=1641)),
        chosen("own case, k 2, H 915", 130_000, [2], record=head(OWN, k=2, H=915)),
        refused("own case, k 2, H 914", 16, record=head(OWN, k=2, H=914)),
        chosen("own case, G 0: it plays no part", 130_000, [2], record=head(OWN, G=0, H=921)),
        chosen("own case, G 6000: it plays no part", 130_000, [2], record=head(OWN, G=6000)),
        refused("own case, G 6000, H 920", 16, record=head(OWN, G=6000, H=920)),
        chosen("own case, T 1", 130_000, [2], record=head(OWN, T=1)),
        chosen("own case, size 2 alone", 130_000, [1], sizes=catalogue(SIZE_2)),
        refused("own case, size 1 alone", 16, sizes=catalogue(SIZE_1)),
    ]


# Rooms and workspaces

def rooms():
    many = long_star(1000)
    return [chosen(f"own case, room {room}", 130_000, [2], room=room)
            for room in (5, 6, 7, 67, 1000)] + [
        refused(f"own case, room {room}", 14, room=room) for room in (4, 3, 1, 0)] + [
        chosen("three sections, room 7", 224_400, [1, 2, 2], record=greedy(), sizes=GREEDY_SIZES),
        chosen("three sections, room 12", 224_400, [1, 2, 2], record=greedy(), sizes=GREEDY_SIZES,
               room=12),
        refused("three sections, room 6", 14, record=greedy(), sizes=GREEDY_SIZES, room=6),
        refused("three sections, room 5", 14, record=greedy(), sizes=GREEDY_SIZES, room=5),
        chosen("63 sections, room 68", 930_000, [1] * 48 + [2] * 15, record=many, sizes=TRADE,
               room=68),
        refused("63 sections, room 66", 14, record=many, sizes=TRADE, room=66),
    ]


def workspaces():
    """8 x 2,201 is 17,608; 8 x 1,001 is 8,008; 8 x 7,001 is 56,008; 16 x 3,387 is
    54,192; 256 x 7,001 is 1,792,256."""
    low_end, high, top = low(-1000, 0, 0), head(OWN, H=6000), long_star(6000)
    return [chosen(f"own case, {work} bytes of workspace", 130_000, [2], work=work)
            for work in (17_608, 17_609, 20_000, 65_536, 65_536 + 17_607, MOST_WORK)] + [
        refused(f"own case, {work} bytes of workspace", 15, work=work)
        for work in (17_607, 17_606, 17_604, 17_600, 8_804, 4, 1, 0)] + [
        chosen("H 0, 8008 bytes of workspace", 130_000, [2], record=head(low_end, H=0),
               work=8008),
        refused("H 0, 8007 bytes of workspace", 15, record=head(low_end, H=0), work=8007),
        chosen("H 6000, 56008 bytes of workspace", 130_000, [2], record=high, work=56_008),
        refused("H 6000, 56007 bytes of workspace", 15, record=high, work=56_007),
        chosen("three sections, 54192 bytes of workspace", 224_400, [1, 2, 2], record=greedy(),
               sizes=GREEDY_SIZES, work=54_192),
        refused("three sections, 54191 bytes of workspace", 15, record=greedy(),
                sizes=GREEDY_SIZES, work=54_191),
        refused("three sections, the workspace of two", 15, record=greedy(), sizes=GREEDY_SIZES,
                work=40_644),
        chosen("63 sections, H 6000, 1792256 bytes of workspace", 630_000, [1] * 63, record=top,
               sizes=TRADE, work=MOST_WORK),
        refused("63 sections, H 6000, 1792255 bytes of workspace", 15, record=top, sizes=TRADE,
                work=MOST_WORK - 1),
    ]


# What buffer and workspace held before

FILLS = (0x00, 0x5a, 0xff)


def fills():
    return [each for fill in FILLS for each in [
        chosen(f"own case, filled with {fill}", 130_000, [2], room=9, fill=fill),
        chosen(f"own case, H 921, filled with {fill}", 130_000, [2], record=head(OWN, H=921),
               work=20_000, fill=fill),
        refused(f"own case, H 920, filled with {fill}", 16, record=head(OWN, H=920), room=9,
                fill=fill),
        refused(f"15, filled with {fill}", 15, work=17_607, room=9, fill=fill),
        refusal(f"14 and 15, filled with {fill}", 14, work=17_607, room=4, holds={14, 15},
                fill=fill),
        refused(f"9, filled with {fill}", 9, record=section(OWN, 1, fixtures=18), room=9,
                fill=fill),
        refused(f"11, filled with {fill}", 11, sizes=put(SIZES, 9, 2, 0), room=9, fill=fill),
        chosen(f"three sections, filled with {fill}", 224_400, [1, 2, 2], record=greedy(),
               sizes=GREEDY_SIZES, room=10, fill=fill),
        refused(f"three sections, no list, filled with {fill}", 16, record=head(greedy(), H=1200),
                sizes=GREEDY_SIZES, room=10, fill=fill),
        chosen(f"section 4 under 1, 3 under 2, filled with {fill}", 100_000, [1, 1, 1, 2],
               record=crossed(), sizes=TRADE, fill=fill),
        costing(f"chain of 63, filled with {fill}", 1_290_000, record=long_row(1989),
                sizes=TRADE, fill=fill),
    ]]


# Why no list suits

def flat(*sizes):
    """Sizes that read the same at every flow, given as (bore, price, velocity,
    slope); with k 3 a slope of 10 loses 13 cm over 100 decimetres."""
    return catalogue(*[(bore, price, (1, velocity, slope), (1_000_000, velocity, slope))
                       for bore, price, velocity, slope in sizes])


# Over 100 decimetres size 1 loses 52 cm and costs 10,000, size 2 loses 13 and
# costs 30,000.
TRADE = flat((20, 100, 900, 40), (30, 300, 600, 10))

ENDS_AT_2051 = (50, 1300, (1000, 500, 12), (2051, 1026, 54))


def no_list():
    """The own case has flow 2,052 and limit 1,500; size 2 requires head 921."""
    one = (60, 1300, (1000, 500, 12), (1500, 700, 50))
    return [
        refused("16 by the last row alone", 16, sizes=catalogue(ENDS_AT_2051)),
        refused("16 by the last rows of two sizes", 16,
                sizes=catalogue((40, 900, (1, 1, 1), (2, 1, 1)), ENDS_AT_2051)),
        refused("16 by the limit alone", 16, record=head(OWN, limit=1025)),
        refused("16 by the limit 1", 16, record=head(OWN, limit=1)),
        refused("16 by the head alone", 16, record=head(OWN, H=920, limit=3000)),
        refused("16 by the head, H 0", 16, record=head(OWN, H=0)),
        refused("size 1 over the limit, size 2 over its last row", 16,
                sizes=catalogue(SIZE_1, ENDS_AT_2051)),
        refused("size 1 over its last row, size 2 over the limit", 16, record=head(OWN, limit=1025),
                sizes=catalogue((40, 900) + ENDS_AT_2051[2:], SIZE_2)),
        refused("size 1 over its last row, size 2 over the head", 16, record=head(OWN, H=920),
                sizes=catalogue((40, 900) + ENDS_AT_2051[2:], SIZE_2)),
        # 20 fixtures flow 979, 60 flow 1,739.
        refused("no size serves the first of two sections", 16, record=pair(60, 20),
                sizes=catalogue(one)),
        refused("no size serves the second of two sections", 16, record=pair(20, 60),
                sizes=catalogue(one)),
        refused("the second end is too high", 16, record=ends(100, 950, H=1000, meter=50),
                sizes=TRADE),
        refused("the first end is too high", 16, record=ends(950, 100, H=1000, meter=50),
                sizes=TRADE),
        refused("the middle end is too high", 16, sizes=TRADE,
                record=ends(100, 950, 100, H=1000, meter=50)),
        refused("each of two in a row has head enough, both don't", 16, record=row(300, 100, H=51),
                sizes=TRADE),
        refused("the greatest loss", 16, sizes=flat((50, 1300, 1500, 65_535)),
                record=section(head(OWN, H=6000), 1, length=5000)),
        chosen("the greatest loss, or a dearer size", 6_500_000, [2],
               sizes=flat((50, 1000, 1500, 65_535), (60, 1300, 1, 1)),
               record=section(head(OWN, H=6000), 1, length=5000)),
        choosing_of("no list, asked for its cost", 16, record=head(OWN, H=920), holds={16},
                    letter="k", lines=["choose 16"]),
    ]


def just_enough():
    last_row = catalogue((50, 1300, (2051, 700, 20), (2052, 800, 25)))
    first_row = catalogue((50, 1300, (2053, 700, 20), (3000, 1400, 90)))
    serve = catalogue((40, 1, (1000, 500, 12), (1500, 700, 50)), (60, 1300) + SIZE_2[2:])
    return [
        chosen("velocity equal to the limit", 130_000, [2], record=head(OWN, limit=1026)),
        refused("velocity one over the limit", 16, record=head(OWN, limit=1025)),
        chosen("flow equal to the last row", 130_000, [1], sizes=last_row,
               record=head(OWN, H=883)),
        refused("flow equal to the last row, H 882", 16, sizes=last_row, record=head(OWN, H=882)),
        refused("flow one over the last row", 16, sizes=catalogue(ENDS_AT_2051)),
        chosen("flow one under the first row", 130_000, [1], sizes=first_row,
               record=head(OWN, H=876)),
        refused("flow one under the first row, H 875", 16, sizes=first_row,
                record=head(OWN, H=875)),
        chosen("size 1 serves only the first of two ends", 130_100, [1, 2], sizes=serve,
               record=pair(20, 60)),
        chosen("size 1 serves only the second of two ends", 130_100, [2, 1], sizes=serve,
               record=pair(60, 20)),
    ]


# Heads

def row(*lengths, H, **measures):
    """Sections one under the other, at the height of the pump."""
    parts = [(i, 0, 0, length, 0, 0) for i, length in enumerate(lengths)]
    parts[-1] = (len(lengths) - 1, 7, 80, lengths[-1], 0, 0)
    return head(house(parts, {7: 71}), meter=0, H=H, **measures)


def ends(*elevations, H, meter=0, length=100):
    """Ends at the pump without free head."""
    return head(house([(0, 7, 80, length, elevation, 0) for elevation in elevations], {7: 71}),
                meter=meter, H=H)


def low_ends():
    """Below the pump: the own case loses 71 with size 2. With a length of 1
    each size loses 1."""
    short = section(low(-1000, 0, 1000), 1, length=1)
    steep = flat((20, 100, 900, 40))
    return [
        chosen("required head 0, H 0", 130_000, [2], record=head(low(-321), H=0)),
        refused("required head 1, H 0", 16, record=head(low(-320), H=0)),
        chosen("required head 1, H 1", 130_000, [2], record=head(low(-320), H=1)),
        chosen("required head -1, H 0", 130_000, [2], record=head(low(-322), H=0)),
        chosen("required head -929, H 0", 130_000, [2], record=head(low(-1000, 0, 0), H=0)),
        chosen("the least required head, H 0", 1300, [2], record=head(short, meter=0, H=0)),
        chosen("meter 1000, H 1", 1300, [2], record=head(short, H=1)),
        refused("meter 1000, H 0", 16, record=head(short, H=0)),
        chosen("meter 999, H 0", 1300, [2], record=head(short, meter=999, H=0)),
        chosen("meter 1000, H 71", 130_000, [2], record=head(low(-1000, 0, 1000), H=71)),
        refused("meter 1000, H 70", 16, record=head(low(-1000, 0, 1000), H=70)),
        # 40 x 1,923 x 13 / 1,000 is 999.96, of 1,924 it is 1,000.48.
        chosen("a loss of 1000 down from -1000, H 0", 192_300, [1], sizes=steep,
               record=ends(-1000, H=0, length=1923)),
        refused("a loss of 1001 down from -1000, H 0", 16, sizes=steep,
                record=ends(-1000, H=0, length=1924)),
        chosen("ends below and above the pump", 40_000, [1, 2], sizes=TRADE,
               record=ends(-1000, 80, H=100)),
        chosen("all ends below the pump", 40_000, [2, 1], sizes=TRADE,
               record=ends(-33, -72, H=0, meter=20)),
        refused("all ends below the pump, one too high", 16, sizes=TRADE,
                record=ends(-32, -72, H=0, meter=20)),
    ]


def high_ends():
    short = section(low(5999, 0, 0), 1, length=1)
    return [
        chosen("elevation 5999, H 6000", 1300, [2], record=head(short, H=6000)),
        refused("elevation 5999, H 5999", 16, record=head(short, H=5999)),
        refused("elevation 6000, H 6000", 16, record=head(section(short, 1, elevation=6000),
                                                          H=6000)),
        refused("the greatest elevation, free head and meter loss", 16,
                record=head(low(6000, 1000, 1000), H=6000)),
        chosen("elevation 4929, free head 1000", 130_000, [2],
               record=head(low(4929, 1000, 0), H=6000)),
        refused("elevation 4930, free head 1000", 16, record=head(low(4930, 1000, 0), H=6000)),
    ]


# Trading head between sections

def three_sections():
    """Widening one pipe after another on the dictating path ends with 2 1 1 at
    234,960. List 1 2 2 requires head 2,383."""
    return [
        chosen("three sections: widening ends dearer", 224_400, [1, 2, 2], record=greedy(),
               sizes=GREEDY_SIZES),
        chosen("three sections, H 2383", 224_400, [1, 2, 2], record=head(greedy(), H=2383),
               sizes=GREEDY_SIZES),
        # 161 and 33 below it to 776 + 200, 161 and 55 to 798 + 200.
        chosen("three sections, H 1214: the widest", 446_600, [3, 3, 3],
               record=head(greedy(), H=1214), sizes=GREEDY_SIZES),
        refused("three sections, H 1213", 16, record=head(greedy(), H=1213), sizes=GREEDY_SIZES),
    ] + [found(f"three sections, H {H}", record=head(greedy(), H=H), sizes=GREEDY_SIZES)
         for H in (2382, 2300, 2000, 1800, 1500, 1400, 6000)]


def two_in_a_row():
    """Section 1 loses 156 for 30,000 or 39 for 90,000, section 2 loses 52 for
    10,000 or 13 for 30,000."""
    stated = {
        52: (120_000, [2, 2]), 90: (120_000, [2, 2]), 91: (100_000, [2, 1]),
        168: (100_000, [2, 1]), 169: (60_000, [1, 2]), 207: (60_000, [1, 2]),
        208: (40_000, [1, 1]), 6000: (40_000, [1, 1]),
    }
    return [chosen(f"lengths 300 and 100, H {H}", *stated[H], record=row(300, 100, H=H),
                   sizes=TRADE) for H in stated] + [
        refused("lengths 300 and 100, H 51", 16, record=row(300, 100, H=51), sizes=TRADE)]


def shared_section(length, H):
    """Three ends of 100 decimetres under one section."""
    return head(house([(0, 0, 0, length, 0, 0)] + [(1, 7, 80, 100, 0, 0)] * 3, {7: 71}), meter=0,
                H=H)


def three_ends():
    """A shared section of 100 loses 52 for 10,000 or 13 for 30,000, one of 600
    loses 312 for 60,000 or 78 for 180,000."""
    stated = {
        (100, 26): (120_000, [2, 2, 2, 2]), (100, 65): (60_000, [2, 1, 1, 1]),
        (100, 103): (60_000, [2, 1, 1, 1]), (100, 104): (40_000, [1, 1, 1, 1]),
        (600, 91): (270_000, [2, 2, 2, 2]), (600, 130): (210_000, [2, 1, 1, 1]),
        (600, 324): (210_000, [2, 1, 1, 1]), (600, 325): (150_000, [1, 2, 2, 2]),
        (600, 363): (150_000, [1, 2, 2, 2]), (600, 364): (90_000, [1, 1, 1, 1]),
    }
    high = section(shared_section(600, 364), 3, elevation=1)
    return [chosen(f"three ends under {length}, H {H}", *result, sizes=TRADE,
                   record=shared_section(length, H)) for (length, H), result in stated.items()] + [
        refused("three ends under 600, H 90", 16, record=shared_section(600, 90), sizes=TRADE),
        chosen("three ends under 600, the second of them higher", 110_000, [1, 1, 2, 1],
               record=high, sizes=TRADE),
    ]


# Trees

def crossed():
    """Section 4 under 1 and section 3 under 2; the end of section 4 is 39 higher,
    so that 169 is left to sections 1 and 4, and 208 to 2 and 3."""
    return head(house([(0, 0, 0, 300, 0, 0), (0, 0, 0, 300, 0, 0), (2, 7, 80, 100, 0, 0),
                       (1, 7, 80, 100, 39, 0)], {7: 71}), meter=0, H=208)


def without_kind(elevation):
    """A section without a kind at this height, and an end under it."""
    return section(tree((0, 600), (1, 600)), 1, elevation=elevation)


def small_trees():
    short = house([(0, 0, 0, 1, 600, 0), (1, 0, 0, 1, 600, 0), (2, 7, 80, 1, 600, 200)], {7: 71})
    one = flat((20, 100, 900, 10))
    inner_kind = house([(0, 7, 40, 100, 900, 200), (1, 7, 40, 100, 600, 200)], {7: 71})
    return [
        chosen("section 4 under 1, section 3 under 2", 100_000, [1, 1, 1, 2], record=crossed(),
               sizes=TRADE),
        chosen("three ends at the pump", 50_000, [1, 2, 1], record=ends(40, 80, 48, H=100),
               sizes=TRADE),
        chosen("three ends around the bounds", 70_000, [2, 1, 2], record=ends(49, 48, 87, H=100),
               sizes=TRADE),
        chosen("a child flows more than its parent", 40_000, [1, 2], record=CHILD_ABOVE,
               sizes=ending_at(348)),
        # Meter 50: 1,098 + 52 and 1,137 + 13 reach 1,150.
        chosen("a section without a kind just reached by size 1", 20_000, [1, 1],
               record=without_kind(1098), sizes=TRADE),
        chosen("a section without a kind one higher", 40_000, [2, 1], record=without_kind(1099),
               sizes=TRADE),
        chosen("a section without a kind just reached by size 2", 40_000, [2, 1],
               record=without_kind(1137), sizes=TRADE),
        refused("a section without a kind too high", 16, record=without_kind(1138), sizes=TRADE),
        # 900 + 200 + 52 is over 1,150.
        chosen("an inner section with fixtures and free head dictates", 40_000, [2, 1],
               record=inner_kind, sizes=TRADE),
        chosen("three in a row, each loss up", 300, [1, 1, 1], record=head(short, H=853),
               sizes=one),
        refused("three in a row, each loss up, H 852", 16, record=head(short, H=852), sizes=one),
    ]


# One tap

def ending_at(flow):
    """A size whose last row is at this flow, and a dearer one for every flow there."""
    return catalogue((20, 100, (1, 100, 10), (flow, 200, 10)),
                     (30, 300, (1, 100, 10), (2000, 200, 10)))


def one_tap():
    """Section 1 has 300 ml/s, section 2 144; by document 01 alone section 1 would have 240, and
    nothing here would be refused. With TAPPED the sections lose 52 and 20, by document 01's flows
    37 and 20; with the flat size they lose 13 each."""
    two = {"record": BATHS_OVER_BASINS}
    flat_beside = {"sizes": catalogue(TAPPED, (50, 900, (1, 1, 10), (400, 1, 10)))}
    return [
        chosen("one tap: size 1 ends at 299", 40_000, [2, 1], sizes=ending_at(299), **two),
        chosen("one tap: size 1 ends at 300", 20_000, [1, 1], sizes=ending_at(300), **two),
        # By document 01 alone section 1 would have 256 and size 1, for 100,000.
        chosen("one tap over another: size 1 ends at 299", 120_000, [2, 2, 2, 2],
               record=TAP_OVER_256, sizes=ending_at(299)),
        refused("one tap: every size ends at 299", 16, sizes=catalogue(ENDS_AT_299), **two),
        chosen("one tap: every size ends at 300", 40_000, [1, 1], sizes=catalogue(ENDS_AT_300),
               **two),
        chosen("one tap: velocity equal to the limit", 60_000, [1, 1], sizes=catalogue(TAPPED),
               record=head(BATHS_OVER_BASINS, limit=700)),
        refused("one tap: velocity one over the limit", 16, sizes=catalogue(TAPPED),
                record=head(BATHS_OVER_BASINS, limit=699)),
        # 50 + 800 + 52 + 20.
        chosen("one tap: just enough head", 60_000, [1, 1], sizes=catalogue(TAPPED),
               record=head(BATHS_OVER_BASINS, H=922)),
        refused("one tap: 1 too little", 16, sizes=catalogue(TAPPED),
                record=head(BATHS_OVER_BASINS, H=921)),
        # Both with TAPPED would require 907 by document 01's flows; list 1 2 requires 915.
        chosen("one tap: section 1 is wider for the head", 120_000, [2, 1],
               record=head(BATHS_OVER_BASINS, H=914), **flat_beside),
    ]


# Under the first row, as rating_vectors.py and first_rows.py read the sizes

def basin():
    """Size 1 costs 900 x 800 and requires head 913 at velocity 112, size 2 costs 1,300 x 800 and
    requires 871 at 70. The first rows themselves would require 1,266 at 800 and 975 at 500."""
    return [
        chosen("basin on a wide main", 720_000, [1], record=BASIN),
        chosen("basin on a wide main, H 913", 720_000, [1], record=head(BASIN, H=913)),
        chosen("basin on a wide main, H 912", 1_040_000, [2], record=head(BASIN, H=912)),
        chosen("basin on a wide main, H 871", 1_040_000, [2], record=head(BASIN, H=871)),
        refused("basin on a wide main, H 870", 16, record=head(BASIN, H=870)),
        chosen("basin on a wide main, H 974, where the first rows leave no list", 720_000, [1],
               record=head(BASIN, H=974)),
        chosen("basin on a wide main, limit 112", 720_000, [1], record=head(BASIN, limit=112)),
        chosen("basin on a wide main, limit 111", 1_040_000, [2], record=head(BASIN, limit=111)),
        chosen("basin on a wide main, limit 70", 1_040_000, [2], record=head(BASIN, limit=70)),
        refused("basin on a wide main, limit 69", 16, record=head(BASIN, limit=69)),
        chosen("basin on a wide main, limit 499, where the first rows leave no list", 720_000, [1],
               record=head(BASIN, limit=499)),
        # Size 1 loses 58 and size 2 20.
        chosen("basin on a wide main, k 2, H 908", 720_000, [1], record=head(BASIN, k=2, H=908)),
        chosen("basin on a wide main, k 2, H 907", 1_040_000, [2], record=head(BASIN, k=2, H=907)),
        chosen("basin on a wide main, k 2, H 870", 1_040_000, [2], record=head(BASIN, k=2, H=870)),
        refused("basin on a wide main, k 2, H 869", 16, record=head(BASIN, k=2, H=869)),
    ]


def first_rows():
    """The one size suits where limit and H are just its velocity and its required head, and with
    one less of either nothing does. A limit of 0 is refused by 3."""
    found = []
    for each in READINGS:
        sizes, H = catalogue((50, 1300) + each.rows), 850 + each.loss
        just = head(SHORT_BASIN, limit=each.velocity, H=H)
        found += [
            chosen(f"{each.name}, limit {each.velocity}, H {H}", 130_000, [1], record=just,
                   sizes=sizes),
            refused(f"{each.name}, limit {each.velocity}, H {H - 1}", 16, sizes=sizes,
                    record=head(just, H=H - 1)),
        ]
        if each.velocity > 1:
            found.append(refused(f"{each.name}, limit {each.velocity - 1}, H {H}", 16, sizes=sizes,
                                 record=head(just, limit=each.velocity - 1)))
    return found


def farthest():
    """The own case requires head 1,026 there and the greatest flow 4,484 at velocity 2,795."""
    most = head(MOST_FLOW, limit=2795)
    return [
        chosen("own case under the greatest first row, H 1026", 130_000, [1], sizes=FARTHEST,
               record=head(OWN, H=1026)),
        refused("own case under the greatest first row, H 1025", 16, sizes=FARTHEST,
                record=head(OWN, H=1025)),
        chosen("the greatest flow under the greatest first row, H 4484", 130_000, [1],
               sizes=FARTHEST, record=head(most, H=4484)),
        refused("the greatest flow under the greatest first row, H 4483", 16, sizes=FARTHEST,
                record=head(most, H=4483)),
        refused("the greatest flow under the greatest first row, limit 2794", 16, sizes=FARTHEST,
                record=head(most, H=4484, limit=2794)),
        refused("own case one under the first row, slope 65535", 16, sizes=one_under(2052, 1500),
                record=section(head(OWN, H=6000), 1, length=5000)),
    ]


def beside_basin(elevation):
    """Document 01's own section, with H as it requires, beside a basin at this height."""
    return head(section(OWN_BESIDE_BASIN, 2, elevation=elevation), H=921)


def over_basin(H):
    return {"record": head(OWN_OVER_BASIN, H=H)}


def behind_another(H):
    """The basin behind another section of 200 decimetres."""
    return {"record": section(head(BASIN_BEHIND, H=H), 1, length=200), "sizes": NARROW_AND_WIDE}


def under_and_over():
    """The own section takes size 2, for 130,000, and loses 71, beside the basin and over it. Behind
    another section the narrow size loses 312 and 156 for 60,000 and 30,000, the wide one, under its
    first row, 15.6, up to 16, and 8 for 180,000 and 90,000."""
    three = {"sizes": AROUND_140}
    return [
        chosen("own case beside a basin", 850_000, [2, 1], record=OWN_BESIDE_BASIN),
        chosen("own case beside a basin 8 higher, H 921", 850_000, [2, 1],
               record=beside_basin(608)),
        chosen("own case beside a basin 9 higher, H 921", 1_170_000, [2, 2],
               record=beside_basin(609)),
        chosen("own case beside a basin 50 higher, H 921", 1_170_000, [2, 2],
               record=beside_basin(650)),
        refused("own case beside a basin 51 higher, H 921", 16, record=beside_basin(651)),
        chosen("own case over a basin, H 984", 850_000, [2, 1], **over_basin(984)),
        chosen("own case over a basin, H 983", 1_170_000, [2, 2], **over_basin(983)),
        chosen("own case over a basin, H 942", 1_170_000, [2, 2], **over_basin(942)),
        refused("own case over a basin, H 941", 16, **over_basin(941)),
        chosen("basin behind another section, H 1318", 90_000, [1, 1], **behind_another(1318)),
        chosen("basin behind another section, H 1317", 150_000, [1, 2], **behind_another(1317)),
        chosen("basin behind another section, H 1170", 150_000, [1, 2], **behind_another(1170)),
        chosen("basin behind another section, H 1169", 210_000, [2, 1], **behind_another(1169)),
        chosen("basin behind another section, H 1022", 210_000, [2, 1], **behind_another(1022)),
        chosen("basin behind another section, H 1021", 270_000, [2, 2], **behind_another(1021)),
        chosen("basin behind another section, H 874", 270_000, [2, 2], **behind_another(874)),
        refused("basin behind another section, H 873", 16, **behind_another(873)),
        # 850 + 2,027: the size that has its first row one over the flow loses least.
        chosen("three basins, H 2877", 390_000, [1, 1, 1], record=head(THREE_BASINS, H=2877),
               **three),
        refused("three basins, H 2876", 16, record=head(THREE_BASINS, H=2876), **three),
        costing("three basins, H 2891", 390_000, record=head(THREE_BASINS, H=2891), **three),
    ]


# Hot and cold lines

# Of the own case, as rating_vectors.py derives: hot size 1 requires head 938 at velocity 965 and
# size 2 878, cold 922 at 890 and 873. By the total norms size 1 is over the limit.

def small_line(service, **values):
    """The basin by one service, with head fields set."""
    return head(serving(BASIN, service), **values)


def services():
    taps = {"record": serving(BATHS_OVER_BASINS, 2)}
    return [
        chosen("own case, total in version 2", 130_000, [2], record=OWN_TOTAL),
        chosen("own case, total in version 2, H 921", 130_000, [2], record=head(OWN_TOTAL, H=921)),
        refused("own case, total in version 2, H 920", 16, record=head(OWN_TOTAL, H=920)),
        chosen("own case, cold", 90_000, [1], record=OWN_COLD),
        chosen("own case, cold, H 922", 90_000, [1], record=head(OWN_COLD, H=922)),
        chosen("own case, cold, H 921", 130_000, [2], record=head(OWN_COLD, H=921)),
        chosen("own case, cold, H 873", 130_000, [2], record=head(OWN_COLD, H=873)),
        refused("own case, cold, H 872", 16, record=head(OWN_COLD, H=872)),
        chosen("own case, hot", 90_000, [1], record=OWN_HOT),
        chosen("own case, hot, H 938", 90_000, [1], record=head(OWN_HOT, H=938)),
        chosen("own case, hot, H 937", 130_000, [2], record=head(OWN_HOT, H=937)),
        chosen("own case, hot, H 878", 130_000, [2], record=head(OWN_HOT, H=878)),
        refused("own case, hot, H 877", 16, record=head(OWN_HOT, H=877)),
        chosen("own case, hot, limit 965", 90_000, [1], record=head(OWN_HOT, limit=965)),
        chosen("own case, hot, limit 964", 130_000, [2], record=head(OWN_HOT, limit=964)),
        refused("own case, hot, limit 602", 16, record=head(OWN_HOT, limit=602)),
        # Flows 200 and 100 ml/s.
        chosen("one tap, hot: size 1 ends at 199", 40_000, [2, 1], sizes=ending_at(199), **taps),
        chosen("one tap, hot: size 1 ends at 200", 20_000, [1, 1], sizes=ending_at(200), **taps),
        chosen("one tap, hot: size 1 ends at 99", 60_000, [2, 2], sizes=ending_at(99), **taps),
        # 100 ml/s: size 1 requires head 892 at velocity 80, size 2 871 at 50.
        chosen("basin on a wide main, cold, H 892", 720_000, [1], record=small_line(1, H=892)),
        chosen("basin on a wide main, cold, H 891", 1_040_000, [2], record=small_line(1, H=891)),
        chosen("basin on a wide main, hot, H 871", 1_040_000, [2], record=small_line(2, H=871)),
        refused("basin on a wide main, hot, H 870", 16, record=small_line(2, H=870)),
        chosen("basin on a wide main, hot, limit 80", 720_000, [1], record=small_line(2, limit=80)),
        chosen("basin on a wide main, hot, limit 79", 1_040_000, [2],
               record=small_line(2, limit=79)),
        chosen("basin on a wide main, cold, limit 50", 1_040_000, [2],
               record=small_line(1, limit=50)),
        refused("basin on a wide main, cold, limit 49", 16, record=small_line(1, limit=49)),
    ]


def line_rooms():
    """Room and workspace go by S and H: 8 x 2,201 is 17,608."""
    return [
        chosen("own case, hot, room 5", 90_000, [1], record=OWN_HOT, room=5),
        chosen("own case, hot, room 9", 90_000, [1], record=OWN_HOT, room=9),
        refused("own case, hot, room 4", 14, record=OWN_HOT, room=4),
        chosen("own case, hot, 17608 bytes of workspace", 90_000, [1], record=OWN_HOT, work=17_608),
        refused("own case, hot, 17607 bytes of workspace", 15, record=OWN_HOT, work=17_607),
    ] + [each for fill in FILLS for each in [
        chosen(f"own case, hot, filled with {fill}", 90_000, [1], record=OWN_HOT, room=9,
               fill=fill),
        refused(f"own case, hot, H 877, filled with {fill}", 16, record=head(OWN_HOT, H=877),
                room=9, fill=fill),
    ]]


def totals():
    """The same in version 2, of the vectors above: the same cost, and the same list where one alone
    is cheapest."""
    return in_total(own_case() + rooms() + no_list() + just_enough() + low_ends() + high_ends()
                    + three_sections() + two_in_a_row() + three_ends() + small_trees() + one_tap()
                    + basin() + first_rows() + farthest() + under_and_over() + equal_costs(),
                    place=2)


def line_houses():
    """The house where widening ends dearer, as lines; its flows are less."""
    return [found(f"three sections, H {H}, {SERVICES[service]}", sizes=GREEDY_SIZES,
                  record=head(serving(greedy(), service), H=H))
            for service in (1, 2) for H in (1250, 1400, 1500, 1800, 2386)]


# Catalogues

TWELVE = [(10 * i, 100 * i, 900, 130 - 10 * i) for i in range(1, 13)]


def catalogue_of(*sizes):
    """The own case with flat sizes."""
    return {"sizes": flat(*sizes)}


def sizes_and_prices():
    """The own case has 1,200 - 50 - 800 = 350 left for the loss."""
    better = catalogue_of((20, 900, 900, 40), (30, 500, 600, 10))
    steeper = catalogue_of((20, 900, 900, 10), (30, 500, 600, 40))
    many, fallen = flat(*TWELVE), flat(*[(b, 1300 - p, v, s) for b, p, v, s in TWELVE])
    middle = flat(*[(b, 40 if b == 70 else p, v, s) for b, p, v, s in TWELVE])
    return [
        chosen("a wider size is cheaper and flatter", 50_000, [2], **better),
        chosen("a wider size is cheaper and flatter, H 863", 50_000, [2], record=head(OWN, H=863),
               **better),
        chosen("a wider size is cheaper and steeper", 50_000, [2], **steeper),
        chosen("a wider size is cheaper and steeper, H 902", 50_000, [2],
               record=head(OWN, H=902), **steeper),
        chosen("a wider size is cheaper and steeper, H 901", 90_000, [1],
               record=head(OWN, H=901), **steeper),
        chosen("a wider size is cheaper and ends earlier", 130_000, [1],
               sizes=catalogue(SIZE_2, (60, 1) + ENDS_AT_2051[2:])),
        chosen("a wider size is cheaper and faster than the limit", 90_000, [1],
               **catalogue_of((20, 900, 1500, 10), (30, 500, 1501, 10))),
        chosen("12 sizes, H 863: the last", 120_000, [12], record=head(OWN, H=863), sizes=many),
        refused("12 sizes, H 862", 16, record=head(OWN, H=862), sizes=many),
        chosen("12 sizes, H 876: the last but one", 110_000, [11], record=head(OWN, H=876),
               sizes=many),
        chosen("12 sizes, H 1005: the second", 20_000, [2], record=head(OWN, H=1005), sizes=many),
        chosen("12 sizes, H 1006: the first", 10_000, [1], record=head(OWN, H=1006), sizes=many),
        chosen("12 sizes, cheaper the wider", 10_000, [12], sizes=fallen),
        chosen("12 sizes, a middle one is cheapest", 4000, [7], sizes=middle),
        chosen("12 sizes, a middle one is cheapest, H 927", 80_000, [8], sizes=middle,
               record=head(OWN, H=927)),
        chosen("price and length 1", 1, [1], record=section(OWN, 1, length=1),
               **catalogue_of((20, 1, 1, 1))),
        chosen("price 10000, length 5000", 50_000_000, [1], record=section(OWN, 1, length=5000),
               **catalogue_of((20, 10_000, 1, 1))),
    ]


# Several cheapest lists

def equal_costs():
    """The three level sizes have one price and lose 13, 26 and 52."""
    alike = flat((20, 100, 900, 40), (30, 100, 900, 40), (40, 300, 600, 10))
    return [
        costing("three sizes at one price", 10_000, sizes=LEVEL),
        costing("three sizes at one price, H 876", 10_000, record=head(OWN, H=876), sizes=LEVEL),
        chosen("three sizes at one price, H 875", 10_000, [1], record=head(OWN, H=875),
               sizes=LEVEL),
        costing("three sizes at one price, three ends", 30_000, sizes=LEVEL,
                record=ends(0, 0, 0, H=1000)),
        costing("two in a row, either is wide", 40_000, record=row(100, 100, H=65), sizes=TRADE),
        costing("two in a row, either is wide, H 103", 40_000, record=row(100, 100, H=103),
                sizes=TRADE),
        costing("three in a row, any two are wide", 70_000, record=row(100, 100, 100, H=78),
                sizes=TRADE),
        costing("two sizes alike but for the bore", 10_000, sizes=alike),
        # 104 + 13 + 13 for 20,000 + 60,000, or 26 + 52 + 52 for 60,000 + 20,000.
        costing("one section wide or two others", 80_000, sizes=TRADE,
                record=row(200, 100, 100, H=130)),
    ]


# Long houses

def long_row(H):
    """63 of 100 decimetres in a row: with w of them steep they lose 819 + 39 x w
    and cost 1,890,000 - 20,000 x w."""
    return row(*[100] * 63, H=H)


def long_star(H):
    """End i is 900 + i high. At H 1,000 size 1 is enough up to end 48."""
    return head(house([(0, 7, 30, 100, 900 + i, 0) for i in range(1, 64)], {7: 71}), meter=0, H=H)


def long_by_hand():
    dear = house([(0, 7, 65_535, 5000, -1000, 0)] * 63, {7: 71})
    return [
        refused("chain of 63, H 818", 16, record=long_row(818), sizes=TRADE),
        chosen("chain of 63, H 819", 1_890_000, [2] * 63, record=long_row(819), sizes=TRADE),
        chosen("chain of 63, H 857", 1_890_000, [2] * 63, record=long_row(857), sizes=TRADE),
        costing("chain of 63, H 858", 1_870_000, record=long_row(858), sizes=TRADE),
        costing("chain of 63, H 1988", 1_310_000, record=long_row(1988), sizes=TRADE),
        costing("chain of 63, H 1989", 1_290_000, record=long_row(1989), sizes=TRADE),
        chosen("chain of 63, H 3276", 630_000, [1] * 63, record=long_row(3276), sizes=TRADE),
        chosen("chain of 63, H 6000", 630_000, [1] * 63, record=long_row(6000), sizes=TRADE),
        refused("star of 63, H 975", 16, record=long_star(975), sizes=TRADE),
        chosen("star of 63, H 976", 1_410_000, [1] * 24 + [2] * 39,
               record=long_star(976), sizes=TRADE),
        chosen("star of 63, H 1000", 930_000, [1] * 48 + [2] * 15, record=long_star(1000),
               sizes=TRADE),
        chosen("star of 63, H 1015", 630_000, [1] * 63, record=long_star(1015), sizes=TRADE),
        # 63 x 5,000 x 10,000; each loses 65.
        chosen("the greatest cost", 3_150_000_000, [1] * 63, record=dear,
               sizes=flat((20, 10_000, 1, 1))),
        refused("the greatest losses in a row", 16, record=row(*[5000] * 63, H=6000),
                sizes=flat((20, 10_000, 1500, 65_535))),
    ]


# Twelve sizes of 64 rows, of the kind of steel pipes: velocities from the bore,
# slopes by the square of the flow over the fifth power of the bore, flows up to
# about 3 m/s. Prices have no common divisor.

BORES = (15, 20, 25, 32, 40, 50, 65, 80, 100, 125, 150, 200)
PRICES = (121, 153, 199, 257, 331, 419, 607, 761, 1051, 1499, 2003, 3109)


def ceiling(number, divisor):
    return -(-number // divisor)


def pipe_row(bore, flow):
    return flow, ceiling(1273 * flow, bore ** 2), ceiling(4000 * flow ** 2, bore ** 5)


def pipe(bore, price, count):
    step = ceiling(3000 * bore ** 2, 1273 * count)
    return (bore, price) + tuple(pipe_row(bore, step * i) for i in range(1, count + 1))


PIPES = catalogue(*[pipe(bore, price, 64) for bore, price in zip(BORES, PRICES)])
FEW_ROWS = catalogue(*[pipe(bore, price, 2) for bore, price in zip(BORES, PRICES)])


def measured(record, H, lift=0):
    """Lengths and heights in turn, so that few lists cost the same."""
    for i in range(1, record[6] + 1):
        kind = kind_of(record, i)
        record = section(record, i, length=20 + 13 * i % 67, elevation=lift - 200 + 37 * i % 400,
                         free=200 if kind else 0)
    return head(record, H=H, limit=2500)


TREES = {"chain": chain_of_kinds, "star": star_of_kinds, "comb": comb_of_kinds}


@functools.lru_cache(maxsize=None)
def least_head(record, sizes):
    """The head that the least losses require."""
    return span(record, sizes)[0]


def long_houses():
    """The lines of the most bytes, with 63 sections and 12 sizes of 64 rows."""
    def of(shape, H, lift=0, fill=FILL, **parts):
        return found(f"{shape} of 63, 12 sizes of 64 rows, H {H}, lifted by {lift}, filled with "
                     f"{fill}", record=measured(TREES[shape](63), H, lift), sizes=PIPES, fill=fill,
                     **parts)
    least = least_head(measured(chain_of_kinds(63), 0), PIPES)
    return [
        of("chain", 6000, fill=0xff), of("star", 6000, fill=0x00), of("comb", 6000),
        of("chain", 1200, room=100), of("star", 800, fill=0xff), of("comb", 1200, fill=0x00),
        of("chain", 0, -800, fill=0xff), of("star", 0, -800), of("comb", 0, -800, fill=0x00),
        of("chain", least, fill=0x00),
        refused("chain of 63, 12 sizes of 64 rows, H 1 too little", 16,
                record=measured(chain_of_kinds(63), least - 1), sizes=PIPES),
        refused("comb of 63, 12 sizes of 64 rows, H 0", 16, record=measured(comb_of_kinds(63), 0),
                sizes=PIPES),
        refusal("star of 63, 12 sizes of 64 rows, room 66 and no workspace", 14,
                record=measured(star_of_kinds(63), 6000), sizes=PIPES, room=66, work=0,
                holds={14, 15}),
    ]


def long_lines():
    """The lines of the most bytes, in version 2."""
    return [found(f"{shape} of 63, 12 sizes of 64 rows, H {H}, {SERVICES[service]}", sizes=PIPES,
                  record=measured(serving(TREES[shape](63), service), H))
            for shape, H, service in [("chain", 1200, 1), ("star", 800, 2), ("comb", 6000, 0),
                                      ("comb", 1200, 2)]]


def long_houses_few_rows():
    """The same sizes with two rows each."""
    shapes = dict(TREES, halving=halving_of_kinds)
    return [found(f"{shape} of 63, 12 sizes of 2 rows, H {H}, lifted by {lift}, filled with {fill}",
                  record=measured(shapes[shape](63), H, lift), sizes=FEW_ROWS, fill=fill)
            for shape, H, lift, fill in [
                ("chain", 6000, 0, 0x00), ("chain", 3000, 0, 0xff), ("chain", 6000, 4000, 0x5a),
                ("comb", 6000, 0, 0xff), ("comb", 2000, 0, 0x5a), ("comb", 300, -800, 0xff),
                ("star", 700, 0, 0x00), ("star", 6000, 5300, 0xff), ("star", 0, -700, 0x5a),
                ("halving", 6000, 0, 0xff), ("halving", 1500, 0, 0x00), ("halving", 900, 0, 0x5a),
                ("halving", 0, -700, 0xff), ("halving", 6000, 5100, 0x00)]]


# Order

def order_parts(numbers, service=None):
    """Parts for which exactly these numbers' conditions hold. 16 is not to be
    had beside 1 to 11."""
    sizes = put(SIZES, 4, 1, 2) if 10 in numbers else SIZES
    record = flow_broken(numbers, service)
    return {
        "record": head(record, limit=1) if 16 in numbers else record,
        "sizes": put(sizes, 29, 2, 0) if 11 in numbers else sizes,
        "room": 5 if 14 in numbers else 6,
        "work": 26_411 if 15 in numbers else 26_412,
    }


ORDER = [{number} for number in (*range(1, 12), 14, 15, 16)] + [
    {1, 10}, {1, 14}, {1, 15}, {2, 11}, {2, 15}, {3, 10}, {3, 14}, {4, 11}, {4, 15}, {5, 10},
    {5, 14}, {6, 11}, {6, 15}, {7, 10}, {7, 14}, {8, 10}, {8, 15}, {9, 10}, {9, 11}, {9, 14},
    {9, 15}, {10, 11}, {10, 14}, {10, 15}, {11, 14}, {11, 15}, {14, 15}, {14, 16}, {15, 16},
    {14, 15, 16}, {10, 11, 14, 15}, {9, 10, 11, 14, 15},
    {1, 2, 3, 4, 5, 6, 7, 8, 9, 10, 11, 14, 15},
]


def order():
    """The least number is the answer; 12 and 13 are none of choosing's."""
    return [refusal(listed(each), min(each), holds=each, **order_parts(each))
            for each in ORDER] + [
        refusal("nothing lent at all", 1, record=b"", sizes=b"", room=0, work=0),
        refusal("no job", 1, record=b"", room=5, work=17_608),
        refusal("no catalogue", 10, sizes=b""),
        refusal("no catalogue, no room, no workspace", 10, sizes=b"", room=0, work=0),
        refusal("S 64 in its length", 3, record=star(64), room=1000, work=MOST_WORK),
        refusal("H 6001", 3, record=head(OWN, H=6001)),
        refusal("H 6001, no room, no workspace", 3, record=head(OWN, H=6001), room=0, work=0),
        refusal("S 2 in 50 bytes", 4, record=head(OWN, S=2)),
        refused("residents 65535, fixtures 65535", 8,
                record=people(section(OWN, 1, fixtures=65_535), {7: 65_535})),
        refused("kind 11 in ends of 50 and 200", 9,
                record=house([end(11, 50), end(11, 200)], {11: 3200})),
    ]


def line_order():
    sets = [each for each in ORDER if 2 not in each]
    return [refusal(f"{listed(each)}, {SERVICES[service]}", min(each), holds=each,
                    **order_parts(each, service))
            for each, service in zip(sets, itertools.cycle(SERVICES))] + [
        refused("service 3", 3, record=serving(OWN, 3)),
        refusal("version 2 in 50 bytes", 4, record=head(OWN, version=2)),
        refused("own case, 70 fixtures, version 2", 9, record=section(OWN_TOTAL, 1, fixtures=70)),
        chosen("own case, 70 fixtures, hot", 90_000, [1], record=section(OWN_HOT, 1, fixtures=70)),
        refused("own case, 56 fixtures, hot", 9, record=section(OWN_HOT, 1, fixtures=56)),
    ]


def damaged_catalogues():
    """The catalogues that rating refuses by 10 or 11."""
    groups = rating_vectors.catalogue_shapes() + rating_vectors.catalogue_rules()
    return [refusal(each.name, each.expect, sizes=each.data[2]) for each in groups
            if each.expect in (10, 11)]


# Random houses

def random_rows(rng, count, steepest):
    """One size in four ends at a flow that not every section keeps under."""
    last = rng.choice([200_000, 200_000, 200_000, rng.randint(300, 3000)])
    flows = sorted(rng.sample(range(100, last), count - 1)) + [last]
    velocities = sorted(rng.randint(1, 2000) for _ in range(count))
    slopes = sorted(rng.randint(steepest // 2, steepest) for _ in range(count))
    return tuple(zip(flows, velocities, slopes))


def random_sizes(rng, count):
    """So many sizes. In one catalogue of three the wider ones are not always
    dearer or flatter; few prices make many lists equally cheap."""
    bores = sorted(rng.sample(range(10, 200), count))
    prices = rng.choices(rng.choice([range(1, 10_001), range(1, 10_001), range(1, 4)]), k=count)
    slopes = rng.sample(range(2, 120), count)
    if rng.randrange(3):
        prices, slopes = sorted(prices), sorted(slopes, reverse=True)
    rows = rng.randint(2, 4)
    return catalogue(*[(bore, price) + random_rows(rng, rows, slope)
                       for bore, price, slope in zip(bores, prices, slopes)])


def span(record, sizes):
    """The least and the greatest head that lists of sizes that serve require;
    any two where some section has no such size."""
    decoded = job.decode(record)
    offered = choosing.offered_to(decoded, catalogues.decode(sizes))
    if not all(offered):
        return 0, 6000
    return [heads.figures(decoded, [pick(each.loss for each in some) for some in offered])[0]
            for pick in (min, max)]


def random_parts(rng, sections, sizes, service=None):
    """A record of so many sections and a catalogue of so many sizes, with an H
    that most often matters; in version 2 where a service is given."""
    found_sizes = random_sizes(rng, sizes)
    record = rating_vectors.random_parts(rng, sections, service)["record"]
    record = head(record, meter=rng.randint(0, 300), limit=rng.choice([1800, 2000, 3000]))
    least, greatest = span(record, found_sizes)
    some = rng.randint(least, least + (greatest - least) // 4)
    H = rng.choice([least - 1, least, greatest] + 6 * [some])
    return {"record": head(record, H=min(6000, max(0, H))), "sizes": found_sizes}


# Those that no list suits.
NO_LIST = {5, 12, 24}


def random_houses():
    rng = random.Random(6)
    counts = [1, 2, 3, 4, 5, 6] * 3 + [rng.randint(7, 40) for _ in range(22)]
    return [random_vector(rng, i, count) for i, count in enumerate(counts, start=1)]


def random_lines():
    rng = random.Random(7)
    counts = [1, 2, 3, 4, 5, 6] + [rng.randint(7, 40) for _ in range(12)]
    return [random_line(rng, i, count, service)
            for i, (count, service) in enumerate(zip(counts, itertools.cycle(SERVICES)), start=1)]


# Those of the lines that no list suits.
NO_LINE = {6, 12}


def random_line(rng, i, count, service):
    parts = random_parts(rng, count, rng.choice([2, 3, 4, 6, 8, 12]), service)
    name = f"random house {i}, {count} sections, {parts['sizes'][5]} sizes, {SERVICES[service]}"
    return refused(name, 16, **parts) if i in NO_LINE else found(name, **parts)


def random_vector(rng, i, count):
    parts = random_parts(rng, count, rng.choice([2, 3, 4, 6, 8, 12]))
    name = f"random house {i}, {count} sections, {parts['sizes'][5]} sizes"
    fill = rng.choice(FILLS)
    if i in NO_LIST:
        return refused(name, 16, fill=fill, **parts)
    return found(name, fill=fill, **parts)


GROUPS = [
    ("choosing, own case", own_case), ("choosing, room", rooms),
    ("choosing, workspace", workspaces), ("choosing, what was there before", fills),
    ("choosing, no list", no_list), ("choosing, just enough", just_enough),
    ("choosing, low ends", low_ends), ("choosing, high ends", high_ends),
    ("choosing, three sections", three_sections), ("choosing, two in a row", two_in_a_row),
    ("choosing, three ends", three_ends), ("choosing, small trees", small_trees),
    ("choosing, one tap", one_tap), ("choosing, a basin on a wide main", basin),
    ("choosing, first rows", first_rows), ("choosing, the greatest first rows", farthest),
    ("choosing, under and over the first row", under_and_over), ("choosing, services", services),
    ("choosing, version 2, room and workspace", line_rooms),
    ("choosing, total in version 2", totals), ("choosing, houses of lines", line_houses),
    ("choosing, sizes and prices", sizes_and_prices), ("choosing, equal costs", equal_costs),
    ("choosing, order", order), ("choosing, version 2, order", line_order),
    ("choosing, damaged catalogues", damaged_catalogues),
    ("choosing, random houses", random_houses), ("choosing, random houses of lines", random_lines),
    ("choosing, long houses by hand", long_by_hand),
    ("choosing, long houses", long_houses_few_rows),
    ("choosing, long houses and many rows", long_houses),
    ("choosing, long houses of lines", long_lines),
]


# The answers

def choice_of(parts):
    room, work, record, sizes = parts
    return choosing.choose(record, sizes, int.from_bytes(work[:4], "big"), room_of(room))


def after(choice):
    """What the line says of the workspace."""
    return " kept" if 1 <= choice.number <= 15 else ""


def buffer_of_choice(parts):
    room, work, *_ = parts
    choice = choice_of(parts)
    result = choosing.result(choice) if choice.number == 0 else None
    return buffer_after(result, room_of(room), work[4])


def list_lines(parts):
    choice = choice_of(parts)
    return [f"choose {choice.number} {buffer_of_choice(parts).hex()}{after(choice)}"]


def cost_lines(parts):
    choice = choice_of(parts)
    if choice.number == 0:
        return [f"choose 0 {choice.cost}"]
    return [f"choose {choice.number}{after(choice)}"]


def choice_parts(data):
    room, work, record, sizes = data
    return Parts(room_of(room), record, sizes, fill=work[4],
                 length=int.from_bytes(work[:4], "big"))


def choice_bytes(parts, shown):
    choice = choice_of(parts)
    kept = " 01" if 1 <= choice.number <= 15 else ""
    return f"{choice.number:08x} {buffer_of_choice(parts)[:shown].hex()}{kept}"


def list_bytes(parts):
    """One list alone is cheapest."""
    choice = choice_of(parts)
    assert choice.number != 0 or choice.count == 1, parts
    return choice_bytes(parts, None)


def cost_bytes(parts):
    """Several lists are, so that the list is not shown."""
    choice = choice_of(parts)
    assert choice.number != 0 or choice.count > 1, parts
    return choice_bytes(parts, 4)


CALLS = {
    "l": Call("choose", choice_parts, list_lines, list_bytes),
    "k": Call("choose", choice_parts, cost_lines, cost_bytes),
}
