"""Vectors for the flow and the duty call with the services of document 02's request L4; vectors.py
tells their lines, and flow_vectors.py and duty_vectors.py have the jobs of version 1."""

import itertools
import random

import duty_vectors
import flow_vectors
import job
from duty_vectors import asking
from edit import OWN, head, house, section, serving
from flow_vectors import (BASINS_OVER_BATHS, BATHS_BESIDE_BASINS, BATHS_OVER_BASINS, CHILD_ABOVE,
                          accepted, chain_of_kinds, comb_of_kinds, drawing, end, flow_broken,
                          flowing, halving_of_kinds, inner, one_kind, one_of, random_house,
                          refused, star_of_kinds)
from houses import OWN_COLD, OWN_HOT, OWN_TOTAL, SERVICES, chain, star
from vector import listed, room_of, with_room, words

COLD, HOT = job.COLD, job.HOT


def duty_of(name, record, duty):
    """A vector for the duty of an accepted job."""
    return duty_vectors.accepted(name, record, duty)


# The own case: 71 residents and 80 fixtures of kind 7, of 0.2 l/s and 190 l/h on either line.
#
# Hot, 150 l a day and 15 l in the hour. m is 71 x 15 / (0.2 x 3,600), in millionths 1,479,166.7,
# up to 1,479,167, between the keys 1.45 with 1.191 and 1.50 with 1.215: alpha is 1.191 + 0.029167 x
# 0.024 / 0.05 = 1.20500016, up to 1.205001, and the flow 5 x 0.2 x 1.205001 l/s, up to 1,206 ml/s.
# The hour sum is 71 x 15 / 190, up to 5,605,264, between 5.6 with 2.760 and 5.7 with 2.793: alpha
# is 2.761738 and the hour 5 x 190 x 2.761738 = 2,623.65, up to 2,624 l/h. The day is 10,650 l, the
# mean hour 443.75, up to 444.
#
# Cold, 250 - 150 = 100 l a day and 28 - 15 = 13 l in the hour. m is 1,281,944.4, up to 1,281,945,
# between 1.25 with 1.096 and 1.30 with 1.120: alpha is 1.1113336, up to 1.111334, and the flow
# 1,111.3, up to 1,112 ml/s. The hour sum is 4,857,894.7, up to 4,857,895, between 4.8 with 2.490
# and 4.9 with 2.524: alpha is 2.5096843, up to 2.509685, and the hour 5 x 190 x 2.509685 = 2,384.2,
# up to 2,385 l/h. The day is 7,100 l, the mean hour 295.8, up to 296.

OWN_LINES = {
    0: ("sums 1840741 7100000", "house 4542 17750 740", "flows 2052"),
    1: ("sums 1281945 4857895", "house 2385 7100 296", "flows 1112"),
    2: ("sums 1479167 5605264", "house 2624 10650 444", "flows 1206"),
}
OWN_DUTIES = {0: 2052, 1: 1112, 2: 1206}

# The dwelling of 109 in document 004's example 1, which says that of the 20 l in the hour 10.9 are
# hot and 9.1 cold.
DWELLING = house([end(1, 124)], {1: 109})
DWELLING_LINES = {
    1: ("sums 1377639 4959500", "house 2545 29430 1227", "flows 1158"),
    2: ("sums 1650139 5940500", "house 2872 14170 591", "flows 1284"),
}


def own_case():
    return [accepted(f"document 01's own case, {SERVICES[service]}", serving(OWN, service), *lines)
            for service, lines in OWN_LINES.items()] + [
        accepted(f"document 004, example 1, dwelling of 109, {SERVICES[service]}",
                 serving(DWELLING, service), *lines) for service, lines in DWELLING_LINES.items()]


def rooms():
    hot, many = OWN_LINES[HOT], serving(chain(63), HOT)
    return [
        flowing("own case, hot, room 16", OWN_HOT, 16, 0, set(), ["flow 0 "
                "00000a40" "0000299a" "000001bc" "000004b6"]),
        flowing("own case, hot, room 15", OWN_HOT, 15, 14, {14}, ["flow 14 " + 15 * "a5"]),
        flowing("own case, hot, room 17", OWN_HOT, 17, 0, set(), list(hot)),
        flowing("own case, hot, room 0", OWN_HOT, 0, 14, {14}),
        flowing("chain of 63, hot, room 264", many, 264, 0, set(), list(hot[:2])),
        flowing("chain of 63, hot, room 263", many, 263, 14, {14}),
    ]


# Total in version 2

def record_in_total(vector):
    """The same job in version 2 with service 0: the figures by hand are the same."""
    record, room = vector.data[2:], room_of(vector.data)
    return vector._replace(name=f"{vector.name}, version 2",
                           data=with_room(serving(record, job.TOTAL), room))


def total_flows():
    pairs = (flow_vectors.examples() + flow_vectors.rooms() + flow_vectors.table_ends()
             + flow_vectors.crowded_houses() + flow_vectors.crowded_sections()
             + flow_vectors.least_flows() + flow_vectors.one_tap() + flow_vectors.hours()
             + flow_vectors.single_kinds() + flow_vectors.small_houses())
    return [record_in_total(each) for each in pairs]


def total_duties():
    pairs = (duty_vectors.examples() + duty_vectors.rooms() + duty_vectors.pump_sections()
             + duty_vectors.single_kinds() + duty_vectors.one_tap())
    return [record_in_total(each) for each in pairs]


# Each kind by each line's norms

# Of 40 residents hour, day and mean hour, and the flows of 50 and of 30 fixtures out of 100, then
# the duty; by document 01's formulas of whole numbers.
ONE_KIND = {
    COLD: {
        1: (1359, 10_800, 450, 496, 402, 682), 2: (522, 1600, 67, 289, 239, 389),
        3: (552, 2800, 117, 301, 247, 405), 4: (894, 2000, 84, 367, 307, 485),
        5: (812, 3600, 150, 362, 292, 500), 6: (1540, 4000, 167, 561, 449, 784),
        7: (1652, 4000, 167, 581, 465, 817), 8: (1763, 4800, 200, 602, 480, 848),
        9: (432, 1600, 67, 257, 215, 339), 10: (281, 360, 15, 198, 171, 250),
        11: (341, 360, 15, 179, 150, 235), 12: (291, 480, 20, 162, 137, 209),
    },
    HOT: {
        1: (1513, 5200, 217, 537, 432, 746), 2: (685, 2400, 100, 346, 280, 475),
        3: (768, 3600, 150, 373, 301, 518), 4: (1279, 2800, 117, 475, 386, 649),
        5: (1157, 5600, 234, 464, 366, 661), 6: (1411, 4000, 167, 526, 424, 729),
        7: (1806, 6000, 250, 622, 493, 880), 8: (1917, 7200, 300, 642, 508, 910),
        9: (620, 3000, 125, 324, 264, 442), 10: (258, 240, 10, 189, 164, 237),
        11: (341, 280, 12, 179, 150, 235), 12: (258, 320, 14, 150, 128, 192),
    },
}


def single_kinds():
    return [accepted(f"kind {kind} alone, {SERVICES[service]}", serving(one_kind(kind), service),
                     words("house", figures), words("flows", (fifty, fifty, thirty)))
            for service, kinds in ONE_KIND.items()
            for kind, (*figures, fifty, thirty, _) in kinds.items()]


# Four kinds at the pump, as in flow_vectors.py: 7,634 l/h, and 2,052, 969, 1,201 and 1,240 ml/s.
FOUR_ENDS = [end(7, 80), end(3, 90), end(12, 300), end(1, 50)]
FOUR = {1: 40, 3: 60, 7: 71, 12: 500}
FOUR_KINDS = {
    COLD: ("house 3826 28100 1171", (1112, 492, 737, 682), 1712),
    HOT: ("house 4170 25250 1053", (1206, 639, 646, 746), 1859),
}


def houses():
    """The house's flow is that of section 1 where one section carries all."""
    found = []
    for service, (figures, flows, duty) in FOUR_KINDS.items():
        name = SERVICES[service]
        beside = serving(house(FOUR_ENDS, FOUR), service)
        under = serving(house([inner()] + [(1,) + part[1:] for part in FOUR_ENDS], FOUR), service)
        found += [
            accepted(f"four kinds at the pump, {name}", beside, figures, words("flows", flows)),
            accepted(f"four kinds under one section without a kind, {name}", under, figures,
                     words("flows", (duty,) + flows)),
        ]
    return found + [
        # 17,750, 7,100 and 10,650 l over 7 hours are 2,535.7, 1,014.3 and 1,521.4.
        accepted("own case, T 7, version 2", head(OWN_TOTAL, T=7), "house 4542 17750 2536"),
        accepted("own case, T 7, cold", head(OWN_COLD, T=7), "house 2385 7100 1015"),
        accepted("own case, T 7, hot", head(OWN_HOT, T=7), "house 2624 10650 1522"),
        accepted("own case, T 1, cold", head(OWN_COLD, T=1), "house 2385 7100 7100"),
        accepted("own case, T 1, hot", head(OWN_HOT, T=1), "house 2624 10650 10650"),
    ]


# 8 and 9 by the line's norms

# A house with the services that accept it, and the number that the others give. Of 71 residents of
# kind 7 the hour sum is 7,100,000, 4,857,895 and 5,605,264. Of kind 2 a resident has 104,000,
# 68,333 and 105,000, of kind 3 120,000, 75,000 and 125,000, of kind 9 84,000, 50,000 and 90,000:
# there the hot line has more than the total. Of kind 8 a resident has 100,000, 70,000 and 80,000.
# Of kind 11 with 250 fixtures each has m 100,000 with 3,150, 4,500 and 4,500 residents, and nothing
# but a section of 200 fixtures can be crowded.
ACCEPTED_BY = [
    ("71 of kind 7, 71 fixtures", house([end(7, 71)], {7: 71}), (0, 1, 2), 9),
    ("71 of kind 7, 70 fixtures", house([end(7, 70)], {7: 71}), (1, 2), 9),
    ("71 of kind 7, 57 fixtures", house([end(7, 57)], {7: 71}), (1, 2), 9),
    ("71 of kind 7, 56 fixtures", house([end(7, 56)], {7: 71}), (1,), 9),
    ("71 of kind 7, 49 fixtures", house([end(7, 49)], {7: 71}), (1,), 9),
    ("71 of kind 7, 48 fixtures", house([end(7, 48)], {7: 71}), (), 9),
    ("100 of kind 2, 105 fixtures", house([end(2, 105)], {2: 100}), (0, 1, 2), 9),
    ("100 of kind 2, 104 fixtures", house([end(2, 104)], {2: 100}), (0, 1), 9),
    ("100 of kind 2, 103 fixtures", house([end(2, 103)], {2: 100}), (1,), 9),
    ("100 of kind 3, 124 fixtures", house([end(3, 124)], {3: 100}), (0, 1), 9),
    ("100 of kind 9, 89 fixtures", house([end(9, 89)], {9: 100}), (0, 1), 9),
    ("100 of kind 9, 90 fixtures", house([end(9, 90)], {9: 100}), (0, 1, 2), 9),
    ("3809 of kind 2", house([end(2, 4000)], {2: 3809}), (0, 1, 2), 8),
    ("3810 of kind 2", house([end(2, 4000)], {2: 3810}), (0, 1), 8),
    ("3846 of kind 2", house([end(2, 4000)], {2: 3846}), (0, 1), 8),
    ("3847 of kind 2", house([end(2, 4000)], {2: 3847}), (1,), 8),
    ("4001 of kind 8", house([end(8, 6000)], {8: 4001}), (1, 2), 8),
    ("5000 of kind 8", house([end(8, 6000)], {8: 5000}), (1, 2), 8),
    ("5001 of kind 8", house([end(8, 6000)], {8: 5001}), (1,), 8),
    ("5714 of kind 8", house([end(8, 6000)], {8: 5714}), (1,), 8),
    ("5715 of kind 8", house([end(8, 6000)], {8: 5715}), (), 8),
    ("3200 of kind 11 in ends of 50 and 200", house([end(11, 50), end(11, 200)], {11: 3200}),
     (1, 2), 9),
    ("4500 of kind 11 in ends of 50 and 200", house([end(11, 50), end(11, 200)], {11: 4500}),
     (1, 2), 9),
    ("4501 of kind 11 in ends of 50 and 200", house([end(11, 50), end(11, 200)], {11: 4501}),
     (), 9),
]


def line_refusals():
    return [accepted(f"{name}, {SERVICES[service]}", serving(record, service))
            if service in services else
            refused(f"{name}, {SERVICES[service]}", serving(record, service), number)
            for name, record, services, number in ACCEPTED_BY for service in SERVICES]


def greatest():
    """At the end of the table: 5 x 200 x 91.9 l/h, and 5 x 200 x 91.89568, up, where 399,980,000 is
    the greatest hour sum that kind 8 has on the cold line."""
    return [
        accepted("5000 of kind 8, hot: hour sum 400000000",
                 serving(house([end(8, 5000)], {8: 5000}), HOT), "house 91900 900000 37500",
                 "flows 28431"),
        accepted("5714 of kind 8, cold: hour sum 399980000",
                 serving(house([end(8, 6000)], {8: 5714}), COLD), "house 91896 685680 28570",
                 "flows 28429"),
    ]


# One tap

# One hotel bath and 20 office basins: by the total norms 240 ml/s on average, and a bath draws 300.
# Hot, the shares are 11,388.9 and 11,111.1, m is 22,501, and with alpha 0.220503 the average 5 x
# 0.150616 x 0.220503 l/s, up to 167 ml/s; the bath draws 200 and a basin 100. Cold, the shares are
# 5,972.2 and 11,111.1, m is 17,085, and with alpha 0.207255 the average 139.9, up to 140.
TAPS = [
    ("a bath over basins", BATHS_OVER_BASINS,
     {1: ("house 155 68 3", (200, 100), (140, 100)),
      2: ("house 200 84 4", (200, 100), (167, 100))}),
    ("a bath under basins", BASINS_OVER_BATHS,
     {1: ("house 155 68 3", (200, 200), (140, 200)),
      2: ("house 200 84 4", (200, 200), (167, 200))}),
    ("a bath beside basins", BATHS_BESIDE_BASINS,
     {1: ("house 155 68 3", (200, 100), (200, 100)),
      2: ("house 200 84 4", (200, 100), (200, 100))}),
    ("a polyclinic's fixtures under basins", house([end(12, 20), end(10, 2, 1)], {12: 1, 10: 1}),
     {1: ("house 82 21 1", (140, 140), (116, 140)),
      2: ("house 77 14 1", (140, 140), (117, 140))}),
    ("a bath under a hostel's fixtures", house([end(2, 2), end(4, 2, 1)], {2: 1, 4: 1}),
     {1: ("house 155 90 4", (200, 200), (166, 200)),
      2: ("house 197 130 6", (200, 200), (189, 200))}),
    ("kinds 11 and 12", house([end(11, 20), end(12, 20, 1)], {11: 1, 12: 1}),
     {1: ("house 86 21 1", (100, 100), (100, 100)),
      2: ("house 84 15 1", (100, 100), (100, 100))}),
    ("a bath, a polyclinic and a school",
     house([inner(), inner(1), end(12, 20, 2), end(10, 2, 2), end(4, 2, 1)], {12: 1, 10: 1, 4: 1}),
     {1: ("house 157 71 3", (200, 140, 100, 140, 200), (155, 116, 100, 140, 200)),
      2: ("house 209 84 4", (200, 140, 100, 140, 200), (179, 117, 100, 140, 200))}),
    ("a child above its parent", CHILD_ABOVE,
     {1: ("house 245 156 7", (200, 214), (190, 214)),
      2: ("house 260 208 9", (200, 220), (198, 220))}),
]

# Residents of kind 11 or 12, with 30 fixtures, and of kind 8 or 10, with 10 below: the averages one
# under one tap, equal to it and one over it.
BESIDE_ONE_TAP = [
    (HOT, {11: 7, 8: 1}, "house 261 229 10", (200, 220), (199, 220)),
    (HOT, {11: 8, 8: 1}, "house 264 236 10", (200, 220), (200, 220)),
    (HOT, {11: 9, 8: 1}, "house 267 243 11", (201, 220), (201, 220)),
    (HOT, {12: 14, 10: 1}, "house 161 118 5", (140, 140), (139, 140)),
    (HOT, {12: 11, 10: 3}, "house 156 106 5", (140, 140), (140, 140)),
    (HOT, {12: 13, 10: 2}, "house 161 116 5", (141, 140), (141, 140)),
    (COLD, {11: 12, 8: 1}, "house 266 228 10", (200, 214), (200, 214)),
    (COLD, {11: 1, 8: 1}, "house 269 129 6", (201, 214), (201, 214)),
    (COLD, {11: 4, 10: 4}, "house 142 72 3", (140, 140), (139, 140)),
    (COLD, {12: 8, 10: 3}, "house 153 123 6", (140, 140), (140, 140)),
    (COLD, {12: 10, 10: 2}, "house 160 138 6", (141, 140), (141, 140)),
]


def one_tap():
    """One tap is that of the line's Z, the least flow 100."""
    found = [drawing(f"{name}, {SERVICES[service]}", serving(record, service), *figures)
             for name, record, services in TAPS for service, figures in services.items()]
    for service, residents, *figures in BESIDE_ONE_TAP:
        (many, _), (few, _) = residents.items()
        record = serving(house([end(many, 30), end(few, 10, 1)], residents), service)
        found.append(drawing(f"kinds {many} and {few}, average {figures[2][0]}, "
                             f"{SERVICES[service]}", record, *figures))
    return found


def least_flows():
    """Of kind 8 one of 40 fixtures has m 15,000 with 27 residents on the hot line, and 13,125 on
    the cold one. One resident of kind 12 has share 3,333.3 and 4,166.7."""
    return [
        accepted("section m 15000, kind 8, hot", serving(one_of(8, 39, 27), HOT),
                 "house 1505 4860 203", "flows 202 733"),
        accepted("section m 13125, kind 8, cold", serving(one_of(8, 39, 27), COLD),
                 "house 1390 3240 135", "flows 200 687"),
        accepted("m 3334, kind 12, hot", serving(house([end(12, 65535)], {12: 1}), HOT),
                 "house 65 8 1", "flows 100"),
        accepted("m 13334, kind 12, hot", serving(house([end(12, 65535)], {12: 4}), HOT),
                 "house 96 32 2", "flows 100"),
        accepted("m 16667, kind 12, hot", serving(house([end(12, 65535)], {12: 5}), HOT),
                 "house 103 40 2", "flows 104"),
        accepted("m 12500, kind 12, cold", serving(house([end(12, 65535)], {12: 3}), COLD),
                 "house 94 36 2", "flows 100"),
        accepted("m 16667, kind 12, cold", serving(house([end(12, 65535)], {12: 4}), COLD),
                 "house 103 48 2", "flows 104"),
    ]


# Order

def order():
    """The sets of version 1, but for those with 2, which has no part in version 2."""
    sets = [(expect, each) for expect, found in flow_vectors.ORDER.items() for each in found
            if 2 not in each]
    return [flowing(f"{listed(each)}, {SERVICES[service]}", flow_broken(each, service),
                    0 if 14 in each else 20, expect, each)
            for (expect, each), service in zip(sets, itertools.cycle(SERVICES))] + [
        flowing("service 3", serving(OWN, 3), 16, 3, {3}),
        flowing("version 3 in 51 bytes", head(OWN_HOT, version=3), 16, 2),
        flowing("version 2 in 40 bytes", head(OWN[:40], version=2, stated=40), 16, 4),
        flowing("version 2 in 40 bytes, k 4", head(OWN[:40], version=2, stated=40, k=4), 16, 3),
        flowing("version 2 in 50 bytes", head(OWN, version=2), 16, 4),
        flowing("version 1 in 51 bytes", head(OWN_HOT, version=1), 16, 4),
        flowing("version 1 with byte 40 = 3", section(OWN, 1, parent=3), 16, 5, {5}),
        flowing("S 64 in its length, hot", serving(star(64), HOT), 1000, 3),
    ]


# Long and random houses

LONG = {"chain": chain_of_kinds, "star": star_of_kinds, "comb": comb_of_kinds,
        "halving tree": halving_of_kinds}


def long_houses():
    return [accepted(f"{name} of 63 with many kinds, {SERVICES[service]}",
                     serving(shape(63), service))
            for name, shape in LONG.items() for service in (COLD, HOT)]


def random_houses():
    rng = random.Random(7)
    counts = [1 + i % 3 for i in range(8)] + [rng.randint(4, 40) for _ in range(15)] + [63]
    return [accepted(f"random house {i}, {count} sections, {SERVICES[service]}",
                     serving(random_house(rng, count, service), service))
            for i, (count, service) in enumerate(zip(counts, itertools.cycle(SERVICES)), start=1)]


# Duties

def duties():
    found = [duty_of(f"document 01's own case, {SERVICES[service]}", serving(OWN, service), duty)
             for service, duty in OWN_DUTIES.items()]
    found += [duty_of(f"kind {kind} alone, {SERVICES[service]}", serving(one_kind(kind), service),
                      figures[-1])
              for service, kinds in ONE_KIND.items() for kind, figures in kinds.items()]
    found += [duty_of(f"four kinds at the pump, {SERVICES[service]}",
                      serving(house(FOUR_ENDS, FOUR), service), duty)
              for service, (_, _, duty) in FOUR_KINDS.items()]
    return found + [
        duty_of("20 and 60 fixtures at the pump, hot",
                serving(house([end(7, 20), end(7, 60)], {7: 71}), HOT), 1206),
        # By the total norms 300.
        duty_of("a bath beside basins, hot: one tap", serving(BATHS_BESIDE_BASINS, HOT), 200),
        duty_of("a bath beside basins, cold: one tap", serving(BATHS_BESIDE_BASINS, COLD), 200),
        duty_of("kinds 11 and 12, hot: the least", serving(
            house([end(11, 20), end(12, 20)], {11: 1, 12: 1}), HOT), 100),
        duty_of("5000 of kind 8, hot", serving(house([end(8, 6000)], {8: 5000}), HOT), 28_431),
        asking("own case, hot, room 4", OWN_HOT, 4, 0, set(), ["duty 0 000004b6"]),
        asking("own case, hot, room 3", OWN_HOT, 3, 14, {14}, ["duty 14 a5a5a5"]),
        asking("own case, cold, room 5", OWN_COLD, 5, 0, set(), ["duty 0 00000458a5"]),
    ]


def duty_order():
    sets = [(expect, each) for expect, found in duty_vectors.ORDER.items() for each in found
            if 2 not in each]
    return [asking(f"{listed(each)}, {SERVICES[service]}", flow_broken(each, service),
                   3 if 14 in each else 4, expect, each)
            for (expect, each), service in zip(sets, itertools.cycle(SERVICES))] + [
        asking("service 3", serving(OWN, 3), 4, 3, {3}),
        asking("version 2 in 50 bytes", head(OWN, version=2), 4, 4),
        asking("71 of kind 7, 70 fixtures, version 2", section(OWN_TOTAL, 1, fixtures=70), 4, 9,
               {9}),
        asking("71 of kind 7, 70 fixtures, hot", section(OWN_HOT, 1, fixtures=70), 4, 0, set(),
               ["house 1206"]),
        asking("71 of kind 7, 56 fixtures, hot", section(OWN_HOT, 1, fixtures=56), 4, 9, {9}),
    ]


GROUPS = [
    ("flow, services", own_case), ("flow, version 2, room", rooms),
    ("flow, total in version 2", total_flows), ("flow, single kinds of lines", single_kinds),
    ("flow, houses of lines", houses), ("flow, refusals by a line's norms", line_refusals),
    ("flow, the greatest of lines", greatest), ("flow, one tap of lines", one_tap),
    ("flow, start of the table of lines", least_flows), ("flow, version 2, order", order),
    ("flow, long houses of lines", long_houses), ("flow, random houses of lines", random_houses),
    ("duty, services", duties), ("duty, total in version 2", total_duties),
    ("duty, version 2, order", duty_order),
]

# The calls are those of flow_vectors.py and duty_vectors.py.
CALLS = {}
