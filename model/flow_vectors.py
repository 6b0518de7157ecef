"""Vectors for the coefficient and the flow call; vectors.py tells their lines."""

import collections
import random

import demand
import job
import norms
from edit import OWN, head, house, people, section
from houses import INNER, TWO_ENDS, broken, chain, comb, greedy, star, twelve_kinds, under
from vector import (Call, Parts, Vector, buffer_bytes, buffer_line, listed, room_of, roomed,
                    with_room, words)


def coefficient(name, m, alpha):
    """A vector for the coefficient."""
    return Vector(name, m.to_bytes(4, "big"), 0, None, "a", [f"alpha {alpha}"])


def flowing(name, record, room, expect, holds=None, lines=None):
    """A vector for the flow call with a buffer of so many bytes."""
    return Vector(name, with_room(record, room), expect, holds, "f", lines)


def exact_room(record):
    """The room of the result: 12 + 4 x S."""
    return 12 + 4 * record[6]


def accepted(name, record, *lines):
    """A vector for an accepted job in exactly the room of the result, and the
    lines that its answer ends in."""
    return flowing(name, record, exact_room(record), 0, set(), list(lines))


def refused(name, record, number):
    """A vector for a job that one condition refuses, with enough room."""
    return flowing(name, record, exact_room(record), number, {number})


def end(kind, fixtures, parent=0):
    """A section with this at its end."""
    return (parent, kind, fixtures, 100, 600, 200)


def inner(parent=0):
    """A section without a kind."""
    return under(parent, INNER)


# The coefficient

# m and the coefficient, both by hand, read from document 001's print.
AROUND = {
    0: 200_000, 1: 200_000, 14_999: 200_000, 15_000: 202_000, 15_001: 202_003,
    # 0.066 is 001's key; 000 and 004 have 0.065 with the same value.
    65_000: 296_500, 65_999: 297_999, 66_000: 298_000, 66_001: 298_002,
    # 21.69 at key 82 is lower than its neighbours suggest, but it rises.
    81_500_000: 21_625_000, 82_000_000: 21_690_000, 82_500_000: 21_855_000,
    399_999_999: 91_900_000, 400_000_000: 91_900_000,
    # Past the table, where no job is accepted.
    400_000_001: 91_900_000, 2 ** 31: 91_900_000, 2 ** 32 - 1: 91_900_000,
}
BETWEEN = {
    15_999: 204_997, 37_500: 251_000, 51_000: 274_500, 102_500: 346_000,
    197_500: 446_500, 510_000: 685_000, 1_025_000: 982_000, 1_840_741: 1_367_927,
    2_018_519: 1_444_778, 2_050_000: 1_458_000, 7_100_001: 3_244_001,
    10_100_000: 4_155_500, 20_499_999: 7_025_000, 32_250_000: 10_018_500,
    50_500_000: 14_440_000, 81_999_999: 21_690_000, 101_000_000: 26_135_000,
    117_000_000: 29_715_000, 202_500_000: 48_960_000, 395_000_001: 90_820_001,
    # m and hour sum of the own case's cold and hot line, see line_vectors.py.
    1_281_945: 1_111_334, 4_857_895: 2_509_685, 1_479_167: 1_205_001, 5_605_264: 2_761_738,
}


def around():
    return [coefficient(f"m {m}", m, alpha) for m, alpha in AROUND.items()]


def between():
    return [coefficient(f"m {m}", m, alpha) for m, alpha in BETWEEN.items()]


def at_keys():
    """Every pair of document 001."""
    return [coefficient(f"key {key}", key, value) for key, value in demand.TABLE]


# Examples

OWN_LINES = ["house 4542 17750 740", "flows 2052"]


def examples():
    """Document 004 names no fixtures, and the flow of the whole house doesn't
    depend on them: 80 are document 01's, 124 are four for each of 31 flats.
    Document 001 has the formulas and an empty form, but no worked flow."""
    dwelling = house([end(1, 124)], {1: 109})
    return [
        accepted("document 01's own case", OWN, *OWN_LINES),
        accepted("document 004, example 2, hotel of 71: NP 1.84, alpha 1.368, 2.05 l/s, then "
                 "NP 7.10, alpha 3.244, 4.54 m3/h; here NP is 1.840741, alpha 1.367927, "
                 "2051.89 ml/s goes up to 2052 and 4541.6 l/h to 4542", OWN, *OWN_LINES),
        accepted("document 004, example 1, dwelling of 109: NP 2.02, alpha 1.445, 2.17 l/s; here "
                 "NP is 2.018519, alpha 1.444778 and 2167.17 ml/s goes up to 2168", dwelling,
                 "house 4945 43600 1817", "flows 2168"),
    ]


# Rooms

def rooms():
    three = greedy()
    return [
        flowing("own case, room 16", OWN, 16, 0, set(), OWN_LINES),
        flowing("own case, room 15", OWN, 15, 14, {14}),
        flowing("own case, room 17", OWN, 17, 0, set(), OWN_LINES),
        flowing("own case, room 12", OWN, 12, 14, {14}),
        flowing("own case, room 1", OWN, 1, 14, {14}),
        flowing("own case, room 0", OWN, 0, 14, {14}),
        flowing("own case, room 1000", OWN, 1000, 0, set(), OWN_LINES),
        flowing("three sections, room 24", three, 24, 0, set(), ["flows 874 631 606"]),
        flowing("three sections, room 23", three, 23, 14, {14}),
        flowing("three sections, room 16", three, 16, 14, {14}),
        flowing("chain of 63, room 264", chain(63), 264, 0, set()),
        flowing("chain of 63, room 263", chain(63), 263, 14, {14}),
    ]


# 8

# Hour shares 66,667 and 83,334 are 66,666.67 and 83,333.33 before they go up:
# the sum of the residents' shares is whole, and that of the rounded ones is 1
# more. The fixtures are too many for 9.
ROUNDED = [end(1, 300), end(4, 300), end(11, 300), end(7, 300)]


def table_ends():
    """The hour share over the m share is 36 x Z / O, at least 3.6, so that the
    house's m never decides alone."""
    return [
        refused("residents 65535, fixtures 65535",
                people(section(OWN, 1, fixtures=65535), {7: 65535}), 8),
        # m is 111,111,112 of all three, alpha 28,430,001.
        accepted("hour sum 400000000, of kind 8", house([end(8, 4000)], {8: 4000}),
                 "house 137850 1200000 50000", "flows 42646"),
        accepted("hour sum 400000000, of kind 1", house([end(1, 4000)], {1: 6000}),
                 "house 137850 2400000 100000", "flows 42646"),
        accepted("hour sum 400000000, of kind 4", house([end(4, 4000)], {4: 9600}),
                 "house 137850 1152000 48000", "flows 42646"),
        refused("hour sum 400100000, of kind 8", house([end(8, 4001)], {8: 4001}), 8),
        refused("hour sum 400066667, of kind 1", house([end(1, 4001)], {1: 6001}), 8),
        refused("hour sum 400041667, of kind 4", house([end(4, 4001)], {4: 9601}), 8),
        accepted("hour sum 400000000, of kinds 7 and 8",
                 house([end(7, 2000), end(8, 2000)], {7: 3999, 8: 1})),
        accepted("hour sum 399900001, each share up",
                 house(ROUNDED, {1: 1, 4: 2, 11: 1, 7: 3997})),
        refused("hour sum 400000001, each share up",
                house(ROUNDED, {1: 1, 4: 2, 11: 1, 7: 3998}), 8),
        refused("m 400000000, hour sum 1440000000", house([end(8, 65535)], {8: 14400}), 8),
        refused("m 400027778, hour sum 1440100000", house([end(8, 65535)], {8: 14401}), 8),
        # A sum of 32 bits would take them for 139,953,538 and 31,889,268.
        refused("m 4434920834, hour sum 25801693044",
                house([end(kind, 65535) for kind in (2, 8, 3, 5)],
                      {2: 51480, 8: 46491, 3: 49398, 5: 59745}), 8),
    ]


# 9

def crowded_houses():
    """The own case has m 1,840,741 and hour sum 7,100,000: 18 fixtures are too
    few for both, 19 and 70 for the hour sum alone."""
    rounded = [end(1, 1), end(4, 1), end(11, 1)]
    few = {1: 1, 4: 2, 11: 1, 7: 2}
    return [refused(f"own case, {n} fixtures", section(OWN, 1, fixtures=n), 9)
            for n in (18, 19, 70)] + [
        accepted("own case, 71 fixtures", section(OWN, 1, fixtures=71), *OWN_LINES),
        accepted("200 fixtures, hour sum 20000000", house([end(8, 200)], {8: 200})),
        refused("200 fixtures, hour sum 20100000", house([end(8, 200)], {8: 201}), 9),
        accepted("201 fixtures, hour sum 20200000", house([end(8, 201)], {8: 202})),
        accepted("201 fixtures, hour sum 400000000", house([end(8, 201)], {8: 4000})),
        refused("two ends of 100, hour sum 20100000", house([end(8, 100)] * 2, {8: 201}), 9),
        accepted("1 fixture, hour sum 100000", house([end(8, 1)], {8: 1}),
                 "house 515 300 13", "flows 349"),
        refused("4 fixtures, hour sum 400001 where whole shares make 400000",
                house(rounded + [end(7, 1)], few), 9),
        accepted("5 fixtures, hour sum 400001", house(rounded + [end(7, 2)], few)),
    ]


def crowded_sections():
    """In these houses are more than 200 fixtures, so that only sections decide."""
    # P is over 0.1 by 3,200 x 40 / (36 x 14 x 250), equal to it with 900 of
    # kind 8, and over it with 901.
    def parted(*counts, kind=8, residents):
        return house([end(kind, count) for count in counts], {kind: residents})

    # With 2,533 residents the fixture of section 63 has m 100,016.
    def long_way(residents):
        return house([inner(i) for i in range(61)] + [end(11, 200, 61), end(11, 1, 62)],
                     {11: residents})

    # Section 1 serves a fixture of kind 8 and one of kind 1. Their shares are
    # 100,370.37 and 99,629.63: together 200,000, each up 200,001. The house has
    # 150 of each; section 3 serves the other 298 fixtures.
    def shared(dwellers):
        return house([end(8, 1), end(1, 1, 1), end(8, 149), end(1, 149, 3)],
                     {8: 542, 1: dwellers})
    return [
        refused("kind 11 in ends of 50 and 200", parted(50, 200, kind=11, residents=3200), 9),
        refused("kind 11 in ends of 200 and 201", parted(200, 201, kind=11, residents=5200), 9),
        refused("kind 11 in ends of 201 and 200", parted(201, 200, kind=11, residents=5200), 9),
        accepted("kind 11 in ends of 201 and 201", parted(201, 201, kind=11, residents=5200)),
        refused("kind 11, 1 fixture under 201",
                house([end(11, 201), end(11, 1, 1)], {11: 3200}), 9),
        accepted("kind 11, 201 under 1",
                 house([end(11, 1), end(11, 201, 1)], {11: 3200})),
        refused("kind 11, 199 under 1 fixture, 201 beside",
                house([end(11, 1), end(11, 199, 1), end(11, 201)], {11: 5200}), 9),
        refused("only section 63 of a chain has at most 200", long_way(2533), 9),
        accepted("the same chain, P under 0.1", long_way(2532)),
        accepted("kind 8 in ends of 50 and 200, P 0.1", parted(50, 200, residents=900)),
        refused("kind 8 in ends of 50 and 200, P over 0.1", parted(50, 200, residents=901), 9),
        refused("m 200001 of 2 fixtures where whole shares make 200000", shared(807), 9),
        accepted("m 199878 of the same 2 fixtures", shared(806)),
    ]


# The start of the table

def one_of(kind, others, residents):
    """A fixture of a kind in section 1, the others beside it."""
    return house([end(kind, 1), end(kind, others)], {kind: residents})


def least_flows():
    """Of one fixture of kind 8, 250,000 x U / (9 x N); of kind 11,
    500,000 x U / (63 x N)."""
    return [
        accepted("section m 14999, kind 8", one_of(8, 312, 169), "flows 300 3674"),
        accepted("section m 15000, kind 8", one_of(8, 49, 27), "flows 303 1235"),
        accepted("section m 15001, kind 8", one_of(8, 586, 317), "flows 304 5648"),
        accepted("section m 14999, kind 11", one_of(11, 117, 223), "flows 140 932"),
        accepted("section m 15000, kind 11", one_of(11, 99, 189), "flows 142 846"),
        accepted("section m 15001, kind 11", one_of(11, 90, 172), "flows 142 801"),
        accepted("section m 28", one_of(8, 999, 1), "flows 300 349"),
    ]


# One tap

# Two shared baths of a hotel and 20 basins of an office. The shares 11,574.07 and 15,873.02 go up
# to m 27,449 with alpha 231,347, so that document 01's value is 239.99, up to 240 ml/s; a bath
# draws 300. The hour's shares are 41,667 and 100,000 with alpha 390,667, which by formula 8 gives
# 5 x 144.71 x 0.390667 = 282.66, up to 283 l/h; a bath's own O is 300, and 300 ml/s are 1,080 l/h.
HOTEL_AND_OFFICE = {4: 1, 11: 2}
BATHS_OVER_BASINS = house([end(4, 2), end(11, 20, 1)], HOTEL_AND_OFFICE)
BASINS_OVER_BATHS = house([end(11, 20), end(4, 2, 1)], HOTEL_AND_OFFICE)
BATHS_BESIDE_BASINS = house([end(4, 2), end(11, 20)], HOTEL_AND_OFFICE)

# Section 1 has share 2,857.14 of kind 11 and 7,500 of kind 8: 10 x (7,500 x 30 + 2,858 x 14) /
# 10,358 is 255.9.
TAP_OVER_256 = house([end(11, 1), end(8, 1, 1), end(8, 99), end(11, 99, 3)], {8: 27, 11: 36})

# Shares 31,747 and 27,778, alpha 288,288: 309.4. The bath alone has alpha 232,445 and 348.7.
CHILD_ABOVE = house([end(11, 2), end(8, 1, 1)], {8: 1, 11: 4})


def drawing(name, record, house_line, flows, averages):
    """A vector whose sections have these flows, and by document 01 alone these."""
    return accepted(name, record, house_line, words("flows", flows), words("averages", averages))


def one_tap():
    """Alpha is at least 0.2, so that document 01's value is at least 10 x the mean Z: of one Z
    alone nothing is raised, and so nothing to 140, which is the least."""
    figures = "house 283 152 7"
    return [
        drawing("a bath over basins", BATHS_OVER_BASINS, figures, (300, 144), (240, 144)),
        drawing("a bath under basins", BASINS_OVER_BATHS, figures, (300, 300), (240, 300)),
        drawing("a bath and basins under a section without a kind",
                house([inner(), end(11, 20, 1), end(4, 2, 1)], HOTEL_AND_OFFICE), figures,
                (300, 144, 300), (240, 144, 300)),
        drawing("a bath and basins beside each other at the pump", BATHS_BESIDE_BASINS, figures,
                (300, 144), (300, 144)),
        # m 8,970 of 3,612 and 5,358: 10 x 16.42.
        drawing("200 in the place of 165", house([end(12, 20), end(10, 2, 1)], {12: 1, 10: 1}),
                "house 129 35 2", (200, 200), (165, 200)),
        drawing("300 in the place of 279, over 200s",
                house([end(2, 2), end(4, 2, 1)], {2: 1, 4: 1}), "house 311 220 10",
                (300, 300), (279, 300)),
        drawing("kinds 11 and 12: nothing is raised to 140",
                house([end(11, 20), end(12, 20, 1)], {11: 1, 12: 1}), "house 137 36 2",
                (140, 140), (140, 140)),
        drawing("300, 200 and 140 in one house",
                house([inner(), inner(1), end(12, 20, 2), end(10, 2, 2), end(4, 2, 1)],
                      {12: 1, 10: 1, 4: 1}), "house 303 155 7",
                (300, 200, 140, 200, 300), (261, 165, 140, 200, 300)),
        drawing("300 over 300, whose average is 256", TAP_OVER_256, "house 2530 8676 362",
                (300, 300, 1257, 365), (256, 300, 1257, 365)),
        # The bath of section 5 is no kind of sections 1 and 3; section 6 has m 7,937.
        drawing("200 and 140 beside a bath",
                house([end(11, 30), end(10, 1, 1), end(11, 60), end(10, 1, 3), end(8, 50),
                       end(11, 10)], {11: 10, 10: 1, 8: 20}), "house 2103 6175 258",
                (200, 200, 200, 200, 1072, 140), (164, 200, 194, 200, 1072, 140)),
    ]


def bath_and(basins):
    """Section 1 serves so many of 100 basins, and one of four baths; section 3 the others."""
    return house([end(11, basins), end(8, 1, 1), end(11, 100 - basins), end(8, 3, 3)],
                 {11: 20, 8: 1})


def clinic_and(basins):
    """The same with one of two fixtures of a polyclinic."""
    return house([end(11, basins), end(10, 1, 1), end(11, 100 - basins), end(10, 1, 3)],
                 {11: 10, 10: 1})


# Of so many basins the flows and the averages. Of 94, 95 and 96 document 01's value is 298.76,
# 299.78 and 300.80, of 66, 67 and 68 198.999, 199.80 and 200.61.
AT_A_BATH = {
    40: ((300, 300, 306, 326), (238, 300, 306, 326)),
    94: ((300, 300, 300, 326), (299, 300, 297, 326)),
    95: ((300, 300, 301, 326), (300, 300, 301, 326)),
    96: ((301, 300, 303, 326), (301, 300, 303, 326)),
}
AT_A_CLINIC = {
    30: ((200, 200, 203, 200), (164, 200, 203, 200)),
    66: ((200, 200, 200, 200), (199, 200, 169, 200)),
    67: ((200, 200, 200, 200), (200, 200, 168, 200)),
    68: ((201, 200, 200, 200), (201, 200, 167, 200)),
}


def beside_one_tap():
    """The average one under one tap, equal to it and one over it; the house is over it."""
    return [drawing(f"{n} basins and a bath", bath_and(n), "house 511 620 26", *figures)
            for n, figures in AT_A_BATH.items()] + [
        drawing(f"{n} basins and a polyclinic's fixture", clinic_and(n), "house 280 175 8",
                *figures) for n, figures in AT_A_CLINIC.items()]


def children_above():
    """A child flows more than its parent, whichever sets the parent's flow."""
    return [
        drawing("349 under 310", CHILD_ABOVE, "house 410 364 16", (310, 349), (310, 349)),
        drawing("317 under 300, whose average is 289",
                house([end(11, 10), end(8, 1, 1), end(8, 2)], {11: 1, 8: 2}), "house 632 616 26",
                (300, 317, 376), (289, 317, 376)),
    ]


def crowded_taps():
    """8 and 9 go by m. A section that one tap raises is far from 9: two fixtures with m 200,000
    have alpha 449,000, and 5 x 0.14 x 0.449 l/s are 314 ml/s."""
    # 18 residents of kind 11 and one of kind 8 have hour sum 1,000,000, with 10 fixtures.
    def few(residents):
        return house([end(11, 1), end(8, 1, 1), end(11, 5), end(8, 3, 3)], {11: residents, 8: 1})

    # Of kind 11 each fixture has m 100,000 with 3,150 residents and 250 fixtures.
    def many(residents):
        return house([end(11, 1), end(8, 1, 1), end(11, 200), end(11, 49), end(8, 99)],
                     {11: residents, 8: 1})

    def full(residents):
        return house([end(11, 5), end(8, 1, 1), end(8, 59_999)], {11: residents, 8: 3999})
    return [
        drawing("one tap in a house of hour sum 1000000 and 10 fixtures", few(18),
                "house 495 588 25", (300, 300, 319, 326), (211, 300, 319, 326)),
        refused("one tap in a house of hour sum 1050000 and 10 fixtures", few(19), 9),
        drawing("one tap beside 200 fixtures of m 20000000", many(3150), "house 15596 50700 2113",
                (300, 300, 4826, 1767, 348), (242, 300, 4826, 1767, 348)),
        refused("one tap beside 200 fixtures of m 20006350", many(3151), 9),
        drawing("one tap in a house of hour sum 400000000", full(2), "house 137825 1199732 49989",
                (300, 300, 42636), (164, 300, 42636)),
        refused("one tap in a house of hour sum 400050000", full(3), 8),
    ]


# Order

def flow_broken(numbers, service=None):
    """Two ends, edited so that exactly these numbers' conditions hold, leaving
    14 to the room; in version 2 where a service is given. 9 holds beside 8 where
    the fixtures are few. 160 fixtures are too few for 161 residents, and as a cold
    line for 234: 234 x 130 / 190 is 160.1."""
    record = broken(numbers, service)
    if 8 in numbers:
        record = people(record, {7: 65535})
    elif 9 in numbers:
        record = people(record, {7: 170 if service is None else 240})
    many = 8 in numbers and 9 not in numbers
    return section(record, 1, fixtures=65535) if many else record


ORDER = {
    1: [{1}, {1, 8}, {1, 9}, {1, 14}, {1, 2, 3, 4, 5, 6, 7, 8, 9, 14}],
    2: [{2}, {2, 8}, {2, 14}],
    3: [{3}, {3, 9}, {3, 14}],
    4: [{4}, {4, 8}, {4, 14}],
    5: [{5}, {5, 8}, {5, 9}, {5, 14}],
    6: [{6}, {6, 8}, {6, 9}, {6, 14}],
    7: [{7}, {7, 8}, {7, 9}, {7, 8, 9}, {7, 14}, {7, 8, 9, 14}],
    8: [{8}, {8, 9}, {8, 14}, {8, 9, 14}],
    9: [{9}, {9, 14}],
    14: [{14}],
}


def order():
    return [flowing(listed(each), flow_broken(each), 0 if 14 in each else 20, expect, each)
            for expect, sets in ORDER.items() for each in sets]


def damaged_records():
    return [
        flowing("empty record", b"", 16, 1),
        flowing("39 bytes", OWN[:39], 16, 1),
        flowing("one byte more", OWN + b"\0", 16, 1, {1, 4}),
        flowing("S 0 in 40 bytes", head(OWN[:40], S=0, stated=40), 16, 3),
        flowing("S 64 in its length", star(64), 1000, 3),
        flowing("S 2 in 50 bytes", head(OWN, S=2), 20, 4),
        flowing("5 at section 2, and 8 and 9",
                section(people(TWO_ENDS, {7: 65535}), 2, length=0), 20, 5, {5, 8, 9}),
    ]


# Houses

def hours():
    """Days and mean hours: 17,750 over T, up."""
    means = {1: 17750, 2: 8875, 5: 3550, 7: 2536, 23: 772, 24: 740}
    return [accepted(f"own case, T {T}", head(OWN, T=T), f"house 4542 17750 {mean}", "flows 2052")
            for T, mean in means.items()]


def one_kind(kind):
    """40 residents and 100 fixtures, 30 of them under section 2."""
    return house([end(kind, 50), end(kind, 20), end(kind, 30, 2)], {kind: 40})


# Of each kind hour, day and mean hour, and the flows of 50 and of 30 fixtures.
ONE_KIND = {
    1: (2567, 16000, 667, 883, 704),
    2: (1134, 4000, 167, 526, 424),
    3: (1245, 6400, 267, 561, 449),
    4: (1937, 4800, 200, 717, 582),
    5: (1776, 9200, 384, 697, 548),
    6: (2575, 8000, 334, 931, 739),
    7: (3094, 10000, 417, 1037, 815),
    8: (3315, 12000, 500, 1072, 841),
    9: (989, 4600, 192, 480, 389),
    10: (448, 600, 25, 308, 262),
    11: (575, 640, 27, 287, 237),
    12: (506, 800, 34, 247, 207),
}


def single_kinds():
    return [accepted(f"kind {kind} alone", one_kind(kind), words("house", figures),
                     words("flows", (fifty, fifty, thirty)))
            for kind, (*figures, fifty, thirty) in ONE_KIND.items()]


def small_houses():
    ends = [end(7, 80), end(3, 90), end(12, 300), end(1, 50)]
    mixed = {1: 40, 3: 60, 7: 71, 12: 500}
    return [
        accepted("four kinds at the pump", house(ends, mixed),
                 "house 7634 53350 2223", "flows 2052 969 1201 1240"),
        accepted("four kinds, each under the one before",
                 house([under(i, part) for i, part in enumerate(ends)], mixed)),
        accepted("four kinds in reverse, each under the one before",
                 house([under(i, part) for i, part in enumerate(reversed(ends))], mixed)),
        accepted("four kinds under one section without a kind",
                 house([inner()] + [under(1, part) for part in ends], mixed),
                 "house 7634 53350 2223", "flows 3208 2052 969 1201 1240"),
        accepted("one kind at two ends with 20 and 60 fixtures",
                 house([end(7, 20), end(7, 60)], {7: 71}), "flows 979 1739"),
        accepted("the same two ends under a section",
                 house([inner(), end(7, 20, 1), end(7, 60, 1)], {7: 71}), "flows 2052 979 1739"),
        accepted("inner fixtures, 20 above 60",
                 house([end(7, 20), end(7, 60, 1)], {7: 71}), "flows 2052 1739"),
        accepted("inner fixtures, 60 above 20",
                 house([end(7, 60), end(7, 20, 1)], {7: 71}), "flows 2052 979"),
        accepted("two sections without a kind in a row",
                 house([inner(), inner(1), end(7, 80, 2)], {7: 71}), "flows 2052 2052 2052"),
        accepted("two sections at the pump, each with two ends",
                 house([inner(), inner(), end(7, 20, 1), end(3, 90, 2), end(12, 300, 1),
                        end(1, 50, 2)], mixed)),
        accepted("section 4 under 1, section 3 under 2",
                 house([inner(), inner(), end(7, 20, 2), end(7, 60, 1)], {7: 71}),
                 "flows 1739 979 979 1739"),
        accepted("two kinds that share all but the fixture's rate",
                 house([end(10, 100), end(11, 100)], {10: 100, 11: 100})),
        accepted("one resident, 65535 fixtures", house([end(12, 65535)], {12: 1}),
                 "house 115 20 1", "flows 140"),
        accepted("12307 residents of kind 10, ends of 65535 and 1",
                 house([end(10, 65535), end(10, 1)], {10: 12307})),
        accepted("all twelve kinds at the pump",
                 house([end(kind, 10 * kind) for kind in range(1, 13)],
                       {kind: 4 + kind for kind in range(1, 13)})),
        refused("all twelve kinds with many residents", twelve_kinds(), 8),
        accepted("comb of 5", comb(5)),
    ]


def in_turn(i):
    """A kind from 1 to 12 and fixtures, both by the section's number."""
    return 1 + 5 * i % 12, 3 + 7 * i % 50


RESIDENTS = {kind: 11 * kind for kind in range(1, 13)}


def chain_of_kinds(count):
    return house([end(*in_turn(i), i - 1) for i in range(1, count + 1)], RESIDENTS)


def star_of_kinds(count):
    return house([end(*in_turn(i)) for i in range(1, count + 1)], RESIDENTS)


def comb_of_kinds(count):
    """Odd sections hang one under the other, without a kind but the last; each
    carries an even one."""
    parts = [end(*in_turn(i), i - 1) if i % 2 == 0 else inner(max(0, i - 2))
             for i in range(1, count)]
    return house(parts + [end(*in_turn(count), count - 2)], {
        1 + 5 * i % 12: 7 * (1 + 5 * i % 12) for i in [*range(2, count, 2), count]})


def halving_of_kinds(count):
    return house([end(*in_turn(i), i // 2) for i in range(1, count + 1)], RESIDENTS)


def long_houses():
    full = [end(8, 65535)] * 63
    return [
        accepted("chain of 63 with every kind", chain_of_kinds(63)),
        accepted("star of 63 with every kind", star_of_kinds(63)),
        accepted("comb of 63 with many kinds", comb_of_kinds(63)),
        accepted("halving tree of 63 with every kind", halving_of_kinds(63)),
        accepted("comb of 63, one kind", comb(63)),
        accepted("star of 63 with the most fixtures", house(full, {8: 4000}),
                 words("flows", [2002] * 63)),
        refused("star of 63 with the most fixtures and residents", house(full, {8: 65535}), 8),
        flowing("chain of 63 with every kind, room 263", chain_of_kinds(63), 263, 14, {14}),
        flowing("chain of 63 with every kind, room 1000", chain_of_kinds(63), 1000, 0, set()),
    ]


# Random houses

def random_parts(rng, count):
    """Sections with any parents; one in three that have children has no kind."""
    parents = [rng.randrange(number) for number in range(1, count + 1)]
    return [inner(parent) if number in parents and rng.randrange(3) == 0
            else end(1 + rng.randrange(12), 1 + rng.randrange(90), parent)
            for number, parent in enumerate(parents, start=1)]


def random_house(rng, count, service=job.TOTAL):
    """Residents up to those that make P_hr 0.1 by the norms of this service, or 0.2
    where the fixtures are too many for the house to be refused."""
    parts, own = random_parts(rng, count), norms.NORMS[service]
    totals = collections.Counter()
    for _, kind, fixtures, *_ in parts:
        totals[kind] += fixtures
    tenths = 2 if sum(totals.values()) > 200 else 1
    most = {kind: int(tenths * n * own[kind].hourly / own[kind].hour / 10)
            for kind, n in totals.items() if kind}
    people_in = {kind: 1 + rng.randrange(max(1, bound)) for kind, bound in most.items()}
    return head(house(parts, people_in), T=1 + rng.randrange(24))


def mixed_house(rng, count):
    """A house of few residents, with baths and showers among many basins."""
    parts = [part if part[1] == 0 else end(rng.choice((11, 12, 11, 12, 10, 9, 8, 4)),
                                           1 + rng.randrange(60), part[0])
             for part in random_parts(rng, count)]
    return house(parts, {kind: rng.choice((1, 1, 2)) for _, kind, *_ in parts if kind})


def mixed_houses():
    rng = random.Random(2)
    counts = [3, 3, 4, 4, 5, 5] + [6 + rng.randrange(15) for _ in range(12)] + [40, 63]
    return [accepted(f"mixed house {i}, {count} sections", mixed_house(rng, count))
            for i, count in enumerate(counts, start=1)]


def random_houses():
    rng = random.Random(1)
    counts = [1 + i % 3 for i in range(10)] + [4 + rng.randrange(17) for _ in range(20)] + [
        21 + rng.randrange(43) for _ in range(10)]
    return [accepted(f"random house {i}, {count} sections", random_house(rng, count))
            for i, count in enumerate(counts, start=1)]


GROUPS = [
    ("coefficient, ends of the table", around), ("coefficient, lines", between),
    ("coefficient, every key", at_keys), ("flow, examples", examples), ("flow, room", rooms),
    ("flow, ends of the table", table_ends), ("flow, crowded houses", crowded_houses),
    ("flow, crowded sections", crowded_sections), ("flow, start of the table", least_flows),
    ("flow, one tap", one_tap), ("flow, beside one tap", beside_one_tap),
    ("flow, children above their parents", children_above),
    ("flow, crowded houses and one tap", crowded_taps),
    ("flow, order", order), ("flow, damaged records", damaged_records),
    ("flow, hours", hours), ("flow, single kinds", single_kinds),
    ("flow, small houses", small_houses), ("flow, long houses", long_houses),
    ("flow, mixed houses", mixed_houses), ("flow, random houses", random_houses),
]


# The answers

def alpha_lines(raw):
    return [f"alpha {demand.alpha(int.from_bytes(raw, 'big'))}"]


def figure_lines(record):
    found = job.decode(record)
    return [words("sums", demand.house_sums(found)),
            words("house", demand.house_figures(found)),
            words("flows", demand.section_flows(found)),
            words("averages", demand.section_averages(found))]


def flow_lines(raw):
    room, record = room_of(raw), raw[2:]
    number, result = demand.flow(record, room)
    answer = [buffer_line("flow", (number, result), room)]
    return answer + figure_lines(record) if number == 0 else answer


def m_parts(raw):
    """No buffer is lent."""
    return Parts(0, raw)


def alpha_bytes(raw):
    return f"{demand.alpha(int.from_bytes(raw, 'big')):08x}"


def flow_bytes(raw):
    return buffer_bytes(demand.flow(raw[2:], room_of(raw)), room_of(raw))


CALLS = {
    "a": Call("alpha", m_parts, alpha_lines, alpha_bytes, None),
    "f": Call("flow", roomed, flow_lines, flow_bytes),
}
