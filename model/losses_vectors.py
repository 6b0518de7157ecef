"""Vectors for the losses call, the first of document 02's request L3; vectors.py tells their
lines."""

import itertools
import random

import catalogue as catalogues
import job
import losses
from edit import OWN, head, house, put, section, serving
from first_rows import READINGS, SHORT_BASIN
from flow_vectors import BASINS_OVER_BATHS, BATHS_OVER_BASINS, bath_and, end
from houses import (BASIN, INNER_AND_END, OWN_BESIDE_BASIN, OWN_COLD, OWN_HOT, OWN_OVER_BASIN,
                    OWN_TOTAL, SERVICES, TWO_ENDS, chain, greedy, halving, star)
from rating_vectors import (AROUND_140, BASIN_BEHIND, ENDS_AT_299, ENDS_AT_300, FARTHEST,
                            GREEDY_SIZES, LEVEL, MOST_FLOW, NARROW_AND_WIDE, ORDER, SIZE_1, SIZES,
                            TAPPED, THREE_BASINS, TOO_FAR, TWELVE, catalogue, low, many_rows,
                            one_under, order_parts, pair, random_parts, rating_of, tree)
from vector import Call, buffer_line, in_total, lent, listed, room_of, stored_by, words


def exact_room(record):
    """The room of the result: 10 x S."""
    return 10 * (record + bytes(7))[6]


def losing(name, expect, record=OWN, room=None, **parts):
    """A vector for the losses call: rating's parts, and the room is that of the result unless
    given."""
    room = exact_room(record) if room is None else room
    return rating_of(name, expect, record=record, room=room, **parts)._replace(letter="e")


def refused(name, number, **parts):
    """A vector that one condition refuses."""
    return losing(name, number, holds={number}, **parts)


def lost(name, *sections, **parts):
    """A vector with a result, and of each section flow, velocity and loss."""
    return losing(name, 0, holds=set(), **parts,
                  lines=[words("lost", (i,) + each) for i, each in enumerate(sections, start=1)])


# The own case: 2,052 is 0x804, 1,026 is 0x402 and 71 is 0x47

OWN_SECTION = (2052, 1026, 71)
OWN_BYTES = "00000804" "0402" "00000047"


def own_case():
    return [
        lost("document 01's own case, size 2", OWN_SECTION),
        losing("own case in bytes", 0, holds=set(), lines=["losses 0 " + OWN_BYTES]),
        refused("own case, size 1: velocity 1642", 13, numbers=[1]),
        losing("own case, size 1, room 9", 14, numbers=[1], room=9, holds={13, 14}),
        lost("own case, size 1, limit 1642", (2052, 1642, 231), numbers=[1],
             record=head(OWN, limit=1642)),
        lost("own case, k 2", (2052, 1026, 65), record=head(OWN, k=2)),
        lost("own case, G, H and meter loss 0: they play no part", OWN_SECTION,
             record=head(OWN, G=0, H=0, meter=0)),
        lost("own case, G and H 6000, meter loss 1000", OWN_SECTION,
             record=head(OWN, G=6000, H=6000, meter=1000)),
        lost("own case, the least elevation and free head: they play no part", OWN_SECTION,
             record=low(-1000, 0, 0)),
        lost("own case, the greatest elevation and free head", OWN_SECTION,
             record=low(6000, 1000, 1000)),
    ]


# Rooms: 10 x S, where rating has 9 + 6 x S. At S 1 that is 10 against 15, at S 2 20 against
# 21, at S 3 30 against 27.

def rooms():
    two = {"record": TWO_ENDS, "numbers": [2, 2]}
    three = {"record": greedy(), "sizes": GREEDY_SIZES, "numbers": [1, 2, 2]}
    many = {"record": chain(63), "sizes": LEVEL, "numbers": [1] * 63}
    return [
        losing("own case, room 10", 0, room=10, holds=set(), lines=["losses 0 " + OWN_BYTES]),
        losing("own case, room 9", 14, room=9, holds={14}, lines=["losses 14 " + 9 * "a5"]),
        losing("own case, room 11", 0, room=11, holds=set(),
               lines=["losses 0 " + OWN_BYTES + "a5"]),
        losing("own case, room 15, a rating's", 0, room=15, holds=set(),
               lines=["losses 0 " + OWN_BYTES + 5 * "a5"]),
        losing("own case, room 20, as of two sections", 0, room=20, holds=set(),
               lines=["losses 0 " + OWN_BYTES + 10 * "a5"]),
        lost("own case, room 1000", OWN_SECTION, room=1000),
        refused("own case, room 8", 14, room=8),
        refused("own case, room 6", 14, room=6),
        refused("own case, room 4", 14, room=4),
        refused("own case, room 1", 14, room=1),
        losing("own case, room 0", 14, room=0, holds={14}, lines=["losses 14 "]),
        lost("two sections, room 20", *[PAIR] * 2, room=20, **two),
        lost("two sections, room 21, a rating's", *[PAIR] * 2, room=21, **two),
        refused("two sections, room 19", 14, room=19, **two),
        refused("two sections, room 10, as of one", 14, room=10, **two),
        lost("three sections, room 30", *GREEDY_FIGURES, room=30, **three),
        refused("three sections, room 29", 14, room=29, **three),
        refused("three sections, room 27, a rating's", 14, room=27, **three),
        lost("three sections, room 31", *GREEDY_FIGURES, room=31, **three),
        losing("chain of 63, room 630", 0, room=630, holds=set(), **many),
        losing("chain of 63, room 629", 14, room=629, holds={14}, **many),
        losing("chain of 63, room 387, a rating's", 14, room=387, holds={14}, **many),
        losing("chain of 63, room 1000", 0, room=1000, holds=set(), **many),
    ]


# Each of the two ends has m 920,371, alpha 927,186 and 1,390.8 ml/s. At size 2 that is 391 of the
# 2,000 between the rows: velocity 695.5, slope 27.2, up 28, which loses 36.4 cm over 10 m with k 3.
PAIR = (1391, 696, 37)

# Document 01's house where widening pipes one by one ends dearer, with the list that is cheapest.
GREEDY_FIGURES = ((874, 994, 1242), (631, 603, 86), (606, 584, 143))


# 12

def lists():
    return [refused(f"list {numbers}", 12, numbers=numbers)
            for numbers in ([], [0], [3], [255], [2, 2], [2, 0], [1, 2, 1])] + [
        refused(f"two sections, list {numbers}", 12, record=TWO_ENDS, numbers=numbers)
        for numbers in ([2], [2, 0], [0, 2], [2, 3], [2, 2, 2])] + [
        refused("12 sizes, number 13", 12, sizes=catalogue(*TWELVE), numbers=[13]),
        lost("12 sizes, the last", OWN_SECTION, sizes=catalogue(*TWELVE), numbers=[12]),
    ]


# 10 and 11; sizes of the own catalogue start at 7 and 27, their rows at 11 and 31

def catalogues_refused():
    return [refused(name, 10, sizes=sizes) for name, sizes in [
        ("catalogue version 2", put(SIZES, 4, 1, 2)),
        ("length field 46", put(SIZES, 0, 4, 46)),
        ("length field 48", put(SIZES, 0, 4, 48)),
    ]] + [losing(name, 10, sizes=sizes) for name, sizes in [
        ("empty catalogue", b""),
        ("6 bytes of a catalogue", SIZES[:6]),
        ("R 1 where 2 rows stand", put(SIZES, 6, 1, 1)),
        ("one byte more, stated", put(SIZES, 0, 4, 48) + b"\0"),
        ("one byte less", SIZES[:-1]),
        ("13 sizes", catalogue(*TWELVE, (13, 13, (1000, 500, 12), (3000, 1500, 90)))),
    ]] + [refused(name, 11, sizes=put(SIZES, *edit)) for name, edit in [
        ("first bore 0", (7, 2, 0)), ("second bore 40", (27, 2, 40)), ("price 0", (9, 2, 0)),
        ("second price 10001", (29, 2, 10_001)), ("first flow 0", (11, 4, 0)),
        ("second flow 1000", (19, 4, 1000)), ("last flow 1000001", (39, 4, 1_000_001)),
        ("velocity falling by 1", (23, 2, 799)), ("slope falling by 1", (45, 2, 11)),
    ]]


# Sizes read at flows, and 13

def figures_at(name, figures, *rows, **parts):
    return lost(name, figures, sizes=catalogue((50, 1300) + rows), numbers=[1], **parts)


def flows_at_rows():
    last = (3000, 1400, 90)
    return [
        figures_at("flow at the first row", (2052, 700, 26), (2052, 700, 20), last),
        figures_at("flow 1 under the first row", (2052, 700, 26), (2053, 700, 20), last),
        figures_at("flow at the last row", (2052, 800, 33), (2051, 700, 20), (2052, 800, 25)),
        figures_at("flow halfway, each up", (2052, 501, 15), (2051, 500, 10), (2053, 501, 11)),
        lost("R 64", (2052, 1000, 71), sizes=catalogue(many_rows(64)), numbers=[1]),
        refused("flow 1 over the last row", 13, numbers=[1],
                sizes=catalogue((50, 1300, (1000, 500, 12), (2051, 1026, 54)))),
        refused("a wider size that ends earlier", 13,
                sizes=catalogue(SIZE_1, (50, 1300, (1, 1, 1), (2, 1, 1)))),
        figures_at("flow far under the first row", (2052, 2, 2), (999_999, 700, 20),
                   (1_000_000, 1400, 90)),
        refused("first row over the limit, and the line from zero", 13, numbers=[1],
                sizes=catalogue((50, 1300, (2053, 1501, 20), (3000, 1600, 90)))),
        figures_at("first row over the limit, the line from zero at it", (2052, 1500, 20),
                   (2736, 2000, 20), (3000, 2100, 90)),
        lost("velocity equal to the limit", OWN_SECTION, record=head(OWN, limit=1026)),
        refused("velocity one over the limit", 13, record=head(OWN, limit=1025)),
        refused("two sections, only the first over the limit", 13, record=pair(60, 20),
                numbers=[1, 2]),
        refused("two sections, only the second over the limit", 13, record=pair(20, 60),
                numbers=[2, 1]),
    ]


def one_tap():
    """The sizes and the flows are those of rating's vectors."""
    above = {"record": BATHS_OVER_BASINS, "sizes": catalogue(ENDS_AT_299, ENDS_AT_300, TAPPED)}
    return [
        lost("one tap: flow, velocity and loss", (300, 700, 52), (144, 360, 20), numbers=[3, 3],
             **above),
        lost("one tap equal to the last row", (300, 700, 52), (144, 360, 20), numbers=[2, 1],
             **above),
        refused("one tap one over the last row", 13, numbers=[1, 1], **above),
        lost("one tap of a kind below", (300, 700, 52), (300, 700, 52), numbers=[2, 2],
             **dict(above, record=BASINS_OVER_BATHS)),
        lost("one tap and an average of 300", (300, 700, 52), (300, 700, 52), (301, 702, 54),
             (326, 752, 60), numbers=[2, 2, 3, 3], **dict(above, record=bath_and(95))),
    ]


# Under the first row, as rating_vectors.py and first_rows.py read the sizes

def basin():
    return [
        lost("basin on a wide main, size 1", (140, 112, 63), record=BASIN, numbers=[1]),
        lost("basin on a wide main, size 2", (140, 70, 21), record=BASIN, numbers=[2]),
        losing("basin on a wide main, size 1, in bytes", 0, record=BASIN, numbers=[1], holds=set(),
               lines=["losses 0 " "0000008c" "0070" "0000003f"]),
        lost("basin on a wide main, k 2, size 1", (140, 112, 58), record=head(BASIN, k=2),
             numbers=[1]),
        lost("basin on a wide main, k 2, size 2", (140, 70, 20), record=head(BASIN, k=2),
             numbers=[2]),
        lost("basin on a wide main, size 1, limit 799, where the first row is 13", (140, 112, 63),
             record=head(BASIN, limit=799), numbers=[1]),
        lost("basin on a wide main, size 1, limit 112", (140, 112, 63), numbers=[1],
             record=head(BASIN, limit=112)),
        refused("basin on a wide main, size 1, limit 111", 13, record=head(BASIN, limit=111),
                numbers=[1]),
        lost("basin on a wide main, size 2, limit 499, where the first row is 13", (140, 70, 21),
             record=head(BASIN, limit=499), numbers=[2]),
        lost("basin on a wide main, size 2, limit 70", (140, 70, 21), numbers=[2],
             record=head(BASIN, limit=70)),
        refused("basin on a wide main, size 2, limit 69", 13, record=head(BASIN, limit=69),
                numbers=[2]),
    ]


def first_rows():
    """Each with its velocity for a limit, and refused with a limit one less, as of rating."""
    found = []
    for each in READINGS:
        parts = {"sizes": catalogue((50, 1300) + each.rows), "numbers": [1]}
        found.append(lost(f"{each.name}, limit {each.velocity}", (140, each.velocity, each.loss),
                          record=head(SHORT_BASIN, limit=each.velocity), **parts))
        if each.velocity > 1:
            found.append(refused(f"{each.name}, limit {each.velocity - 1}", 13,
                                 record=head(SHORT_BASIN, limit=each.velocity - 1), **parts))
    return found


def farthest():
    return [
        lost("own case under the greatest first row", (2052, 135, 176), sizes=FARTHEST,
             numbers=[1]),
        lost("the greatest flow under the greatest first row", (42_646, 2795, 3634), numbers=[1],
             record=head(MOST_FLOW, limit=2795), sizes=FARTHEST),
        refused("the greatest flow under the greatest first row, limit 2794", 13, numbers=[1],
                record=head(MOST_FLOW, limit=2794), sizes=FARTHEST),
        refused("first flow 1000000", 11, sizes=TOO_FAR, numbers=[1]),
        lost("own case one under the first row, slope 65535", (2052, 1500, 4_257_760), numbers=[1],
             record=section(OWN, 1, length=5000), sizes=one_under(2052, 1500)),
        lost("the greatest flow one under the first row, slope 65535", (42_646, 3000, 4_259_710),
             record=section(head(MOST_FLOW, limit=3000), 1, length=5000), numbers=[1],
             sizes=one_under(42_646, 3000)),
    ]


def under_and_over():
    beside, over = {"record": OWN_BESIDE_BASIN}, {"record": OWN_OVER_BASIN}
    behind = {"record": BASIN_BEHIND, "sizes": NARROW_AND_WIDE}
    return [
        lost("own case beside a basin", OWN_SECTION, (140, 112, 63), numbers=[2, 1], **beside),
        lost("own case beside a basin, both size 2", OWN_SECTION, (140, 70, 21), numbers=[2, 2],
             **beside),
        refused("own case beside a basin, both size 1", 13, numbers=[1, 1], **beside),
        lost("own case over a basin", (2053, 1027, 71), (140, 112, 63), numbers=[2, 1], **over),
        lost("own case over a basin, both size 2", (2053, 1027, 71), (140, 70, 21),
             numbers=[2, 2], **over),
        lost("under the first row of a size, then over that of another", (140, 112, 8),
             (140, 560, 156), numbers=[2, 1], **behind),
        lost("over the first row of a size, then under that of another", (140, 560, 156),
             (140, 112, 8), numbers=[1, 2], **behind),
        lost("three basins: one under the first row, at it and one over it", (140, 142, 2027),
             (140, 143, 2041), (140, 144, 2043), record=THREE_BASINS, sizes=AROUND_140,
             numbers=[1, 2, 3]),
    ]


# Losses

def steep(slope):
    """A size of one velocity and slope at every flow."""
    return catalogue((50, 1300, (1, 1500, slope), (1_000_000, 1500, slope)))


def ranges():
    """The least loss is 1 cm, the greatest 65,535 x 5,000 x 13 / 1,000, which is whole."""
    longest = section(OWN, 1, length=5000)
    return [
        lost("the greatest loss", (2052, 1500, 4_259_775), numbers=[1], sizes=steep(65_535),
             record=longest),
        lost("the greatest loss at k 2", (2052, 1500, 3_932_100), numbers=[1],
             sizes=steep(65_535), record=head(longest, k=2)),
        lost("the greatest loss of slope 65534", (2052, 1500, 4_259_710), numbers=[1],
             sizes=steep(65_534), record=longest),
        lost("the least loss: 0.013 up", (2052, 1500, 1), numbers=[1], sizes=steep(1),
             record=section(OWN, 1, length=1)),
        lost("loss 65536, over two bytes: 50,412 x 1.3 is 65,535.6", (2052, 1500, 65_536),
             numbers=[1], sizes=steep(50_412)),
        lost("loss 65535: 50,411 x 1.3 is 65,534.3", (2052, 1500, 65_535), numbers=[1],
             sizes=steep(50_411)),
        lost("the greatest flow", (42_646, 1500, 85_196), numbers=[1], sizes=steep(65_535),
             record=MOST_FLOW),
        lost("the least flow", (140, 1500, 85_196), numbers=[1], sizes=steep(65_535),
             record=house([end(12, 65_535)], {12: 1})),
    ]


def own_losses():
    """Each section's own loss and no path's; the sections stand in their order. In the row of
    three m is 1,037,038, alpha 988,260 and the flow 1,482.4 ml/s."""
    three = tree((0, 600), (1, 600), (2, 600))
    return [
        lost("three in a row: each its own loss", (1483, 900, 13), (1483, 600, 26),
             (1483, 300, 52), record=three, sizes=LEVEL, numbers=[1, 2, 3]),
        lost("three in a row, the other way", (1483, 300, 52), (1483, 600, 26), (1483, 900, 13),
             record=three, sizes=LEVEL, numbers=[3, 2, 1]),
        lost("a section without a kind and its end", OWN_SECTION, OWN_SECTION,
             record=INNER_AND_END, numbers=[2, 2]),
        lost("ends of 20 and 60 fixtures", (979, 490, 16), (1739, 870, 54), record=pair(20, 60),
             numbers=[2, 2]),
        losing("tree of 63, all kinds", 0, holds=set(), record=halving_house(), sizes=LEVEL,
               numbers=[1 + i % 3 for i in range(63)]),
    ]


def halving_house():
    """So few residents that nothing is refused."""
    record = halving(63)
    for kind in job.KINDS:
        record = put(record, 14 + 2 * kind, 2, 10 * kind)
    return record


# Hot and cold lines, as rating_vectors.py reads the sizes at their flows

def services():
    taps = {"record": serving(BATHS_OVER_BASINS, 2)}
    return [
        lost("own case, total in version 2, size 2", OWN_SECTION, record=OWN_TOTAL),
        refused("own case, total in version 2, size 1", 13, record=OWN_TOTAL, numbers=[1]),
        lost("own case, cold, size 2", (1112, 556, 23), record=OWN_COLD),
        lost("own case, cold, size 1", (1112, 890, 72), record=OWN_COLD, numbers=[1]),
        lost("own case, hot, size 2", (1206, 603, 28), record=OWN_HOT),
        lost("own case, hot, size 1", (1206, 965, 88), record=OWN_HOT, numbers=[1]),
        losing("own case, hot, size 2, in bytes", 0, record=OWN_HOT, holds=set(),
               lines=["losses 0 " "000004b6" "025b" "0000001c"]),
        refused("own case, hot, size 1, limit 964", 13, record=head(OWN_HOT, limit=964),
                numbers=[1]),
        lost("one tap, hot", (200, 500, 26), (100, 250, 13), sizes=catalogue(TAPPED),
             numbers=[1, 1], **taps),
        lost("one tap, cold", (200, 500, 26), (100, 250, 13), sizes=catalogue(TAPPED),
             numbers=[1, 1], record=serving(BATHS_OVER_BASINS, 1)),
        lost("own case, hot, room 10", (1206, 603, 28), record=OWN_HOT, room=10),
        refused("own case, hot, room 9", 14, record=OWN_HOT, room=9),
        losing("chain of 63, hot, room 630", 0, room=630, holds=set(), sizes=LEVEL,
               record=serving(chain(63), 2), numbers=[1] * 63),
        refused("chain of 63, hot, room 629", 14, room=629, sizes=LEVEL,
                record=serving(chain(63), 2), numbers=[1] * 63),
        lost("basin on a wide main, cold, size 1", (100, 80, 42), record=serving(BASIN, 1),
             numbers=[1]),
        lost("basin on a wide main, cold, size 2", (100, 50, 21), record=serving(BASIN, 1),
             numbers=[2]),
        lost("basin on a wide main, hot, size 1, limit 80", (100, 80, 42), numbers=[1],
             record=head(serving(BASIN, 2), limit=80)),
        refused("basin on a wide main, hot, size 1, limit 79", 13, numbers=[1],
                record=head(serving(BASIN, 2), limit=79)),
        lost("basin on a wide main, hot, size 2, limit 50", (100, 50, 21), numbers=[2],
             record=head(serving(BASIN, 2), limit=50)),
        refused("basin on a wide main, hot, size 2, limit 49", 13, numbers=[2],
                record=head(serving(BASIN, 2), limit=49)),
    ]


def totals():
    """The same in version 2, of the vectors above."""
    return in_total(own_case() + rooms() + flows_at_rows() + one_tap() + basin() + first_rows()
                    + farthest() + under_and_over() + ranges() + own_losses())


def line_order():
    def parts(numbers, service):
        return dict(order_parts(numbers, service), room=19 if 14 in numbers else 20)
    sets = [each for each in ORDER if 2 not in each]
    return [losing(f"{listed(each)}, {SERVICES[service]}", min(each), holds=each,
                   **parts(each, service))
            for each, service in zip(sets, itertools.cycle(SERVICES))] + [
        losing("13 and 14, hot", 14, holds={13, 14}, **parts({13, 14}, 2)),
        refused("service 3", 3, record=serving(OWN, 3)),
        losing("version 2 in 50 bytes", 4, record=head(OWN, version=2)),
        refused("own case, 70 fixtures, version 2", 9, record=section(OWN_TOTAL, 1, fixtures=70)),
        lost("own case, 70 fixtures, hot", (1206, 603, 28),
             record=section(OWN_HOT, 1, fixtures=70)),
    ]


# Order

def order():
    """14 comes before 13; otherwise the least number is the answer, as of rating."""
    def parts(numbers):
        return dict(order_parts(numbers), room=19 if 14 in numbers else 20)
    of_the_job = [{number, number + 1} for number in range(1, 9)]
    return [losing(listed(each), min(each), holds=each, **parts(each))
            for each in ORDER + of_the_job] + [
        losing("13 and 14", 14, holds={13, 14}, **parts({13, 14})),
        losing("13 and 14, room 0", 14, holds={13, 14}, **dict(parts({13}), room=0)),
        losing("nothing lent at all", 1, record=b"", sizes=b"", numbers=[], room=0),
        losing("no job", 1, record=b"", room=10),
        losing("S 64 in its length", 3, record=star(64), numbers=[1] * 64, room=640),
        refused("star of 63, the most residents", 8, record=star(63), sizes=LEVEL,
                numbers=[1] * 63),
    ]


# Random houses

def random_houses():
    rng = random.Random(3)
    counts = [1, 2, 3, 4, 5] + [rng.randint(6, 40) for _ in range(10)] + [63]
    return [losing(f"random house {i}, {count} sections", 0, holds=set(),
                   **random_parts(rng, count))
            for i, count in enumerate(counts, start=1)]


def random_lines():
    rng = random.Random(5)
    counts = [1, 2, 3] + [rng.randint(4, 40) for _ in range(6)]
    return [losing(f"random house {i}, {count} sections, {SERVICES[service]}", 0, holds=set(),
                   **random_parts(rng, count, service))
            for i, (count, service) in enumerate(zip(counts, itertools.cycle(SERVICES)), start=1)]


GROUPS = [
    ("losses, own case", own_case), ("losses, room", rooms), ("losses, lists", lists),
    ("losses, catalogues", catalogues_refused), ("losses, flows at rows", flows_at_rows),
    ("losses, one tap", one_tap), ("losses, a basin on a wide main", basin),
    ("losses, first rows", first_rows), ("losses, the greatest first rows", farthest),
    ("losses, under and over the first row", under_and_over), ("losses, ranges", ranges),
    ("losses, own losses", own_losses),
    ("losses, services", services), ("losses, total in version 2", totals),
    ("losses, order", order), ("losses, version 2, order", line_order),
    ("losses, random houses", random_houses), ("losses, random houses of lines", random_lines),
]


# The answers

def losses_lines(parts):
    room, *rest = parts
    number, result = losses.losses(*rest, room_of(room))
    answer = [buffer_line("losses", (number, result), room_of(room))]
    if number != 0:
        return answer
    record, sizes, numbers = rest
    found = losses.figures(job.decode(record), catalogues.decode(sizes), numbers)
    return answer + [words("lost", (i,) + each) for i, each in enumerate(found, start=1)]


CALLS = {"e": Call("losses", lent, losses_lines, stored_by(losses.losses))}
