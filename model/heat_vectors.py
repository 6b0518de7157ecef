"""Vectors for the heat call of document 02's request L4; vectors.py tells their lines."""

import random
import struct

import demand
import heat
import job
from edit import OWN, head, house, people, section, serving
from flow_vectors import end, flow_broken, inner, one_kind, random_house
from houses import OWN_COLD, OWN_HOT, OWN_TOTAL, chain, star
from vector import Call, Vector, buffer_line, lent, listed, room_of, stored_by, words

HOT = job.HOT

# t and the loss, as they are lent.
GIVEN = struct.Struct(">II")


def heating(name, expect, record=OWN_HOT, t=5, loss=1200, room=8, holds=None, lines=None):
    """A vector for the heat call; the room is that of the result unless given."""
    parts = (room.to_bytes(2, "big"), record, GIVEN.pack(t, loss))
    return Vector(name, parts, expect, holds, "t", lines)


def heated(name, mean, greatest, **parts):
    """A vector with a result: watts of the mean hour and of the greatest hour."""
    return heating(name, 0, holds=set(), lines=[words("watts", (mean, greatest))], **parts)


def refused(name, number, **parts):
    """A vector that one condition refuses."""
    return heating(name, number, holds={number}, **parts)


# The own case as a hot line: 71 of the 150 l and 15 l/h, with fixtures of 0.2 l/s and 190 l/h.
# The day is 10,650 l and the mean hour 443.75, up to 444 l/h. The hour sum is 71 x 15 / 190, in
# millionths 5,605,263.2, up to 5,605,264, between the keys 5.6 with 2.760 and 5.7 with 2.793: alpha
# is 2.760 + 0.05264 x 0.033 / 0.1, up to 2.761738, and the hour 5 x 190 x 2.761738 = 2,623.65, up
# to 2,624 l/h. At 5 degrees a litre an hour takes 1.16 x 50 = 58 W: 25,752 and 152,192 W, and with
# 1,200 W lost 26,952 (0x6948) and 153,392 (0x25730).

OWN_BYTES = "00006948" "00025730"


def own_case():
    return [
        heated("document 01's own case, hot, t 5, loss 1200", 26_952, 153_392),
        heating("own case, hot, in bytes", 0, holds=set(), lines=["heat 0 " + OWN_BYTES]),
        heating("own case, hot: its hours", 0, holds=set(), lines=["hours 444 2624"]),
        heated("own case, hot, t 5, loss 0", 25_752, 152_192, loss=0),
        # 10,650 / 7 is 1,521.43: 1,522 x 58. Over one hour, 10,650 x 58.
        heated("own case, hot, T 7", 89_476, 153_392, record=head(OWN_HOT, T=7)),
        heated("own case, hot, T 1", 618_900, 153_392, record=head(OWN_HOT, T=1)),
        # 10,650 / 10 is whole.
        heated("own case, hot, T 10", 62_970, 153_392, record=head(OWN_HOT, T=10)),
        heated("own case, hot, with another head: it plays no part", 26_952, 153_392,
               record=head(OWN_HOT, k=2, meter=0, G=0, H=1, limit=1)),
        heated("own case, hot, with another section: it plays no part", 26_952, 153_392,
               record=section(OWN_HOT, 1, fixtures=65535, length=1, elevation=-1000, free=0)),
        heated("own case, hot, in two ends at the pump", 26_952, 153_392,
               record=serving(house([end(7, 20), end(7, 60)], {7: 71}), HOT)),
    ]


def rooms():
    return [
        heating("own case, hot, room 8", 0, holds=set(), lines=["heat 0 " + OWN_BYTES]),
        heating("own case, hot, room 7", 14, room=7, holds={14}, lines=["heat 14 " + 7 * "a5"]),
        heating("own case, hot, room 9", 0, room=9, holds=set(),
                lines=["heat 0 " + OWN_BYTES + "a5"]),
        heating("own case, hot, room 16", 0, room=16, holds=set(),
                lines=["heat 0 " + OWN_BYTES + 8 * "a5"]),
        heated("own case, hot, room 1000", 26_952, 153_392, room=1000),
        refused("own case, hot, room 4", 14, room=4),
        refused("own case, hot, room 1", 14, room=1),
        heating("own case, hot, room 0", 14, room=0, holds={14}, lines=["heat 14 "]),
        heated("chain of 63, hot, room 8", 26_952, 153_392, record=serving(chain(63), HOT)),
        refused("chain of 63, hot, room 7", 14, record=serving(chain(63), HOT), room=7),
    ]


# 20

def services():
    return [
        refused("own case, version 1", 20, record=OWN),
        refused("own case, version 2, total", 20, record=OWN_TOTAL),
        refused("own case, cold", 20, record=OWN_COLD),
        heated("own case, hot", 26_952, 153_392),
        heating("own case, service 3", 3, record=serving(OWN, 3), holds={3, 20}),
        # There byte 40 is a parent.
        heating("own case, version 1 with byte 40 = 2", 5, record=section(OWN, 1, parent=2),
                holds={5, 20}),
        refused("chain of 63, version 1", 20, record=chain(63)),
        refused("chain of 63, cold", 20, record=serving(chain(63), job.COLD)),
    ]


# 21

# At t degrees a litre an hour takes 1.16 x (55 - t): 63.8, 62.64, 52.2, 30.16 and 29 W.
TEMPERATURES = {
    0: (28_328, 167_412), 1: (27_813, 164_368), 10: (23_177, 136_973), 29: (13_392, 79_140),
    30: (12_876, 76_096),
}
TOO_WARM = [31, 32, 54, 55, 56, 128, 255, 256, 286, 65_535, 65_541, 65_566, 2 ** 24 + 5, 2 ** 31,
            2 ** 31 + 5, 2 ** 32 - 30, 2 ** 32 - 1]


def temperatures():
    return [heated(f"t {t}, loss 0", *watts, t=t, loss=0) for t, watts in TEMPERATURES.items()] + [
        refused(f"t {t}", 21, t=t) for t in TOO_WARM] + [
        refused(f"t {t}, loss 0", 21, t=t, loss=0) for t in (31, 2 ** 32 - 1)]


LOSSES = [1, 255, 256, 65_535, 65_536, 999_999, 1_000_000]
TOO_MUCH = [1_000_001, 1_000_064, 1_048_576, 2 ** 24 + 1200, 2 ** 31 - 1, 2 ** 31, 2 ** 31 + 1200,
            2 ** 32 - 1200, 2 ** 32 - 1]


def losses():
    """The loss is added as it is."""
    return [heated(f"loss {loss}", 25_752 + loss, 152_192 + loss, loss=loss)
            for loss in LOSSES] + [refused(f"loss {loss}", 21, loss=loss) for loss in TOO_MUCH] + [
        heated("t 0, loss 1000000", 1_028_328, 1_167_412, t=0, loss=1_000_000),
        heated("t 30, loss 1000000", 1_012_876, 1_076_096, t=30, loss=1_000_000),
        refused("t 30, loss 1000001", 21, t=30, loss=1_000_001),
        refused("t 31, loss 1000000", 21, t=31, loss=1_000_000),
        refused("t 31, loss 1000001", 21, t=31, loss=1_000_001),
        refused("t 0, loss 4294967295", 21, t=0, loss=2 ** 32 - 1),
        refused("t and loss 4294967295", 21, t=2 ** 32 - 1, loss=2 ** 32 - 1),
        # Lent in the other order they would be out of range.
        heated("t 30, loss 5", 12_881, 76_101, t=30, loss=5),
        refused("t 1200, loss 5", 21, t=1200, loss=5),
    ]


# Order

def order_parts(numbers):
    """Parts for which exactly these numbers' conditions hold. A record whose version is neither 1
    nor 2 stands as one of version 1, which is not hot: 2 never holds without 20."""
    service = job.COLD if 20 in numbers else HOT
    record = flow_broken(numbers) if 2 in numbers else flow_broken(numbers, service)
    return {"record": record, "t": 31 if 21 in numbers else 5, "room": 7 if 14 in numbers else 8}


ORDER = {
    1: [{1}, {1, 14}, {1, 20}, {1, 21}, {1, 2, 20}, {1, 3}, {1, 3, 4, 5, 6, 7, 8, 9, 14, 20, 21},
        {1, 2, 3, 4, 5, 6, 7, 8, 9, 14, 20, 21}],
    2: [{2, 20}, {2, 20, 21}, {2, 14, 20}, {2, 3, 20}],
    3: [{3}, {3, 4}, {3, 14}, {3, 20}, {3, 21}],
    4: [{4}, {4, 5}, {4, 14}, {4, 20}, {4, 21}],
    5: [{5}, {5, 6}, {5, 14}, {5, 20}, {5, 21}],
    6: [{6}, {6, 7}, {6, 14}, {6, 20}, {6, 21}],
    7: [{7}, {7, 8}, {7, 14}, {7, 20}, {7, 21}, {7, 8, 9, 14, 20, 21}],
    8: [{8}, {8, 9}, {8, 14}, {8, 20}, {8, 21}],
    9: [{9}, {9, 14}, {9, 20}, {9, 21}, {9, 20, 21}, {9, 14, 20, 21}],
    20: [{20}, {20, 21}, {14, 20}, {14, 20, 21}],
    21: [{21}, {14, 21}],
    14: [{14}],
}


def order():
    """20 comes after 9, 21 after 20, and 14 last."""
    return [heating(listed(each), expect, holds=each, **order_parts(each))
            for expect, sets in ORDER.items() for each in sets] + [
        heating("20 and 21 of version 1, both out of range, room 0", 20, record=OWN, t=2 ** 32 - 1,
                loss=2 ** 32 - 1, room=0, holds={14, 20, 21}),
        heating("20 and 21 of version 2, total, by the loss", 20, record=OWN_TOTAL, loss=1_000_001,
                holds={20, 21}),
        heating("21 by the loss and 14", 21, loss=1_000_001, room=7, holds={14, 21}),
        heating("21 by t and 14, room 0", 21, t=31, room=0, holds={14, 21}),
        heating("nothing lent at all", 1, record=b"", room=0),
        heating("no job", 1, record=b""),
        heating("39 bytes", 1, record=OWN_HOT[:39]),
        heating("S 64 in its length, hot", 3, record=serving(star(64), HOT)),
        heating("version 2 in 40 bytes", 4, record=head(OWN[:40], version=2, stated=40)),
        heating("version 2 in 50 bytes", 4, record=head(OWN, version=2)),
    ]


def line_refusals():
    """8 and 9 go by the norms of the line. With 71 residents the hour sum is 5,605,264, and
    7,100,000 by the total norms. Of kind 2 a resident has 105,000 on the hot line and 104,000 by
    the total norms."""
    def hostel(residents, fixtures):
        return serving(house([end(2, fixtures)], {2: residents}), HOT)
    return [
        refused("own case, hot, 56 fixtures", 9, record=section(OWN_HOT, 1, fixtures=56)),
        heated("own case, hot, 57 fixtures", 26_952, 153_392,
               record=section(OWN_HOT, 1, fixtures=57)),
        refused("100 of kind 2, hot, 104 fixtures", 9, record=hostel(100, 104)),
        heating("100 of kind 2, hot, 105 fixtures", 0, record=hostel(100, 105), holds=set()),
        refused("3810 of kind 2, hot: hour sum 400050000", 8, record=hostel(3810, 4000)),
        heating("3809 of kind 2, hot: hour sum 399945000", 0, record=hostel(3809, 4000),
                holds=set()),
    ]


# Kinds and houses

# The watts of 40 residents of each kind at 5 degrees with 1,200 W lost: 58 W for each l/h of the
# mean hour and of the greatest one, by document 01's formulas of whole numbers. Of kind 1 5,200 l
# over 24 hours are 217 l/h, and the greatest hour is 1,513 l/h.
ONE_KIND = {
    1: (13_786, 88_954), 2: (7000, 40_930), 3: (9900, 45_744), 4: (7986, 75_382),
    5: (14_772, 68_306), 6: (10_886, 83_038), 7: (15_700, 105_948), 8: (18_600, 112_386),
    9: (8450, 37_160), 10: (1780, 16_164), 11: (1896, 20_978), 12: (2012, 16_164),
}


def single_kinds():
    return [heated(f"kind {kind} alone, hot", *watts, record=serving(one_kind(kind), HOT))
            for kind, watts in ONE_KIND.items()]


def ranges():
    """No job that 8 accepts comes near to what four bytes hold. The greatest mean hour is a day
    over T 1: of an hour sum of 400,000,000 a resident of kind 1 takes 54,500 and draws 130 l, one
    of kind 8 takes 80,000 and draws 180 l, and those of other kinds draw less for what they take.
    7,335 and 3 take 399,997,500 and draw 954,090 l, and no others draw more: 63.8 x 954,090 is
    60,870,942. The greatest hour is 5 x 200 x 91.9 = 91,900 l/h, all of fixtures of 200 l/h, and
    that day's is the same, 5 x 200 x 91.89946 up: 63.8 x 91,900 is 5,863,220. The least is one
    resident of kind 10: a mean hour of 0.25, up to 1 l/h, and an hour sum of 20,000 with alpha
    0.215: 5 x 60 x 0.215 = 64.5, up to 65 l/h."""
    day = head(serving(house([end(1, 9000), end(8, 300)], {1: 7335, 8: 3}), HOT), T=1)
    hour = serving(house([end(8, 5000)], {8: 5000}), HOT)
    least = serving(house([end(10, 1)], {10: 1}), HOT)
    most = {"t": 0, "loss": 1_000_000}
    return [
        heated("the greatest day in one hour", 61_870_942, 6_863_220, record=day, **most),
        refused("one resident more", 8, record=people(day, {1: 7336}), **most),
        # 900,000 l over 24 hours are 37,500 l/h.
        heated("the greatest hour", 3_392_500, 6_863_220, record=hour, **most),
        heated("the least, t 30, loss 0", 29, 1885, record=least, t=30, loss=0),
        heated("the least, t 0, loss 0: 63.8 up", 64, 4147, record=least, t=0, loss=0),
    ]


# Four kinds, as in flow_vectors.py. Their day is 40 x 130 + 60 x 90 + 71 x 150 + 500 x 8 =
# 25,250 l, and 1,052.08 l/h go up to 1,053; the greatest hour is 4,170 l/h. Each l/h takes 58 W.
FOUR_KINDS = (62_274, 243_060)


def houses():
    ends = [end(7, 80), end(3, 90), end(12, 300), end(1, 50)]
    mixed = {1: 40, 3: 60, 7: 71, 12: 500}
    return [
        heated("four kinds at the pump, hot", *FOUR_KINDS, record=serving(house(ends, mixed), HOT)),
        heated("four kinds under one section without a kind, hot", *FOUR_KINDS,
               record=serving(house([inner()] + [(1,) + part[1:] for part in ends], mixed), HOT)),
    ]


def random_houses():
    rng = random.Random(6)
    counts = [1, 2, 3, 4, 5] + [rng.randint(6, 40) for _ in range(24)] + [63]
    return [heating(f"random house {i}, {count} sections, hot", 0, t=rng.randint(0, 30),
                    loss=rng.choice((0, rng.randint(0, 1_000_000))), holds=set(),
                    record=serving(random_house(rng, count, HOT), HOT))
            for i, count in enumerate(counts, start=1)]


GROUPS = [
    ("heat, own case", own_case), ("heat, room", rooms), ("heat, services", services),
    ("heat, temperatures", temperatures), ("heat, losses", losses), ("heat, order", order),
    ("heat, refusals by the line's norms", line_refusals), ("heat, single kinds", single_kinds),
    ("heat, ranges", ranges), ("heat, houses", houses), ("heat, random houses", random_houses),
]


# The answers

def by_bytes(record, given, room):
    return heat.heat(record, *GIVEN.unpack(given), room)


def heat_lines(parts):
    room, record, given = parts
    number, result = by_bytes(record, given, room_of(room))
    answer = [buffer_line("heat", (number, result), room_of(room))]
    if number != 0:
        return answer
    found = job.decode(record)
    return answer + [words("hours", (demand.mean_hour(found), demand.hour(found))),
                     words("watts", heat.figures(found, *GIVEN.unpack(given)))]


CALLS = {"t": Call("heat", lent, heat_lines, stored_by(by_bytes))}
