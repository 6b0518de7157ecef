"""Vectors for the heads call, the second of document 02's request L3; vectors.py tells their
lines."""

import itertools
import random

import heads
import job
import losses
from edit import OWN, head, house, people, section, serving
from flow_vectors import end, flow_broken, random_house
from houses import (INNER, OWN_COLD, OWN_HOT, OWN_TOTAL, SERVICES, TWO_ENDS, chain, greedy, star,
                    under)
from losses_vectors import OWN_BYTES
from rating_vectors import ends, low, random_measures, random_parts, tree
from vector import Call, Vector, buffer_line, in_total, lent, listed, room_of, stored_by, words

# "one is over 4,259,775 cm"
MOST = 4_259_775


def given(*lost):
    """A list of losses."""
    return b"".join(each.to_bytes(4, "big") for each in lost)


def heading(name, expect, lost, record=OWN, room=9, holds=None, lines=None):
    """A vector for the heads call; the room is that of the result unless given."""
    return Vector(name, (room.to_bytes(2, "big"), record, lost), expect, holds, "h", lines)


def headed(name, figures, *lost, **parts):
    """A vector with a result: required head, pump head and dictating section."""
    return heading(name, 0, given(*lost), holds=set(), lines=[words("heads", figures)], **parts)


def refused(name, number, lost, **parts):
    """A vector that one condition refuses."""
    return heading(name, number, lost, holds={number}, **parts)


# The own case: meter loss 50, elevation 600 and free head 200 are 850, and G is 500

OWN_HEADS = "00000399" "000001a5" "01"


def own_case():
    return [
        headed("document 01's own case, loss 71", (921, 421, 1), 71),
        heading("own case in bytes", 0, given(71), holds=set(), lines=["heads 0 " + OWN_HEADS]),
        headed("own case, loss 231, of size 1", (1081, 581, 1), 231),
        headed("own case, loss 0", (850, 350, 1), 0),
        headed("own case, loss 1", (851, 351, 1), 1),
        headed("own case, k 2, T 1, H 0 and limit 1: they play no part", (921, 421, 1), 71,
               record=head(OWN, k=2, T=1, H=0, limit=1)),
        headed("own case, length 1: it plays no part", (921, 421, 1), 71,
               record=section(OWN, 1, length=1)),
        headed("own case, meter loss 0", (871, 371, 1), 71, record=head(OWN, meter=0)),
        headed("own case, meter loss 1000", (1871, 1371, 1), 71, record=head(OWN, meter=1000)),
    ]


def anybodys():
    """Losses that nothing of the job and no table gives: over 100 decimetres with k 3 a slope
    loses 1.3 times itself, up, so never 1, 5 or 9, and at most 85,196."""
    return [
        headed("loss 5, which no slope gives", (855, 355, 1), 5),
        headed("loss 85197, one over what the length can lose", (86_047, 85_547, 1), 85_197),
        headed("loss 255, one byte full", (1105, 605, 1), 255),
        headed("loss 256, its low byte 0", (1106, 606, 1), 256),
        headed("loss 65535, two bytes full", (66_385, 65_885, 1), 65_535),
        headed("loss 65536, its low bytes 0", (66_386, 65_886, 1), 65_536),
        headed("loss 1000000", (1_000_850, 1_000_350, 1), 1_000_000),
        headed("loss 1193046, four different bytes", (1_193_896, 1_193_396, 1), 0x00123456),
    ]


# Rooms: 9 bytes, however many sections

def rooms():
    three = {"record": greedy(), "lost": given(1242, 86, 143)}
    many = {"record": chain(63), "lost": given(*[1] * 63)}
    return [
        heading("own case, room 9", 0, given(71), holds=set(), lines=["heads 0 " + OWN_HEADS]),
        heading("own case, room 8", 14, given(71), room=8, holds={14},
                lines=["heads 14 " + 8 * "a5"]),
        heading("own case, room 10", 0, given(71), room=10, holds=set(),
                lines=["heads 0 " + OWN_HEADS + "a5"]),
        heading("own case, room 15, a rating's", 0, given(71), room=15, holds=set(),
                lines=["heads 0 " + OWN_HEADS + 6 * "a5"]),
        headed("own case, room 1000", (921, 421, 1), 71, room=1000),
        refused("own case, room 4", 14, given(71), room=4),
        refused("own case, room 1", 14, given(71), room=1),
        heading("own case, room 0", 14, given(71), room=0, holds={14}, lines=["heads 14 "]),
        heading("three sections, room 9", 0, **three, holds=set(),
                lines=[words("heads", (2383, 1883, 3))]),
        heading("three sections, room 8", 14, **three, room=8, holds={14}),
        heading("chain of 63, room 9", 0, **many, holds=set(),
                lines=[words("heads", (913, 413, 63))]),
        heading("chain of 63, room 8", 14, **many, room=8, holds={14}),
    ]


# 19: "the losses aren't S long"

def lengths_of(name, count, lengths, **parts):
    """Losses of 71 cm each, cut or lengthened to so many bytes."""
    return [refused(f"{name}, {length} bytes for {4 * count}", 19, (given(71) * 300)[:length],
                    **parts) for length in lengths]


def list_lengths():
    two, three, many = TWO_ENDS, greedy(), chain(63)
    return lengths_of("own case", 1, (0, 1, 2, 3, 5, 7, 8, 10, 12, 260, 1028)) + [
        headed("own case, 4 bytes", (921, 421, 1), 71),
    ] + lengths_of("two sections", 2, (0, 2, 4, 7, 9, 12, 20, 264), record=two) + [
        headed("two sections, 8 bytes", (921, 421, 1), 71, 71, record=two),
    ] + lengths_of("three sections", 3, (0, 3, 8, 11, 13, 16, 30), record=three) + [
        headed("three sections, 12 bytes", (1140, 640, 3), 71, 71, 71, record=three),
    ] + lengths_of("chain of 63", 63, (0, 63, 248, 251, 253, 256, 508, 630), record=many) + [
        headed("chain of 63, 252 bytes", (5323, 4823, 63), *[71] * 63, record=many),
        # Losses of 0 pass, so that it is the length alone that is refused.
        refused("own case, two losses of 0", 19, bytes(8)),
        refused("own case, 3 bytes of 0", 19, bytes(3)),
        refused("own case, its result of the losses call", 19, bytes.fromhex(OWN_BYTES)),
        refused("two sections, two such results", 19, bytes.fromhex(2 * OWN_BYTES), record=two),
        refused("own case, its size list", 19, b"\2"),
        refused("own case, its job", 19, OWN),
    ]


# 19: "or one is over 4,259,775 cm"; 4,259,775 is 0x0040ffbf

OVER = [MOST + 1, MOST + 64, 0x410000, 2 ** 23, 2 ** 24, 2 ** 24 + 71, 2 ** 31 - 1, 2 ** 31,
        2 ** 31 + 71, 0x47000000, 2 ** 32 - 1]


def at_place(place, count, loss):
    """Losses of 71 cm and this one at a place, from 1."""
    return [loss if i == place else 71 for i in range(1, count + 1)]


def bounds():
    """Of three ends at the pump the one with the greatest loss requires 850 and that."""
    three = ends(600, 600, 600)
    long = head(section(chain(63), 63, free=0), G=0)
    return [
        headed("loss 4259775", (4_260_625, 4_260_125, 1), MOST),
        headed("loss 4259774", (4_260_624, 4_260_124, 1), MOST - 1),
    ] + [refused(f"loss {loss}", 19, given(loss)) for loss in OVER] + [
        headed(f"loss 4259775 in section {place} of three", (4_260_625, 4_260_125, place),
               *at_place(place, 3, MOST), record=three) for place in (1, 2, 3)] + [
        refused(f"loss {loss} in section {place} of three", 19, given(*at_place(place, 3, loss)),
                record=three) for place in (1, 2, 3) for loss in (MOST + 1, 2 ** 32 - 1)] + [
        # 50, 600, 62 losses of 71, which are 4,402, and the greatest.
        headed(f"loss 4259775 in section {place} of a chain of 63", (4_264_827, 4_264_827, 63),
               *at_place(place, 63, MOST), record=long) for place in (1, 32, 63)] + [
        refused(f"loss 4259776 in section {place} of a chain of 63", 19,
                given(*at_place(place, 63, MOST + 1)), record=long) for place in (1, 32, 63)] + [
        refused("the first three bytes of a loss over the most", 19, given(MOST + 1)[:3]),
        refused("a loss over the most, and a byte too many", 19, given(MOST + 1) + b"\0"),
        refused("a loss over the most, and one too many", 19, given(MOST + 1, 71)),
        refused("one too many, which is over the most", 19, given(71, MOST + 1)),
        refused("two sections, one loss too few, which is over the most", 19, given(MOST + 1),
                record=TWO_ENDS),
        refused("two sections, both losses over the most", 19, given(MOST + 1, 2 ** 32 - 1),
                record=TWO_ENDS),
        refused("two sections, both losses two bytes to the left", 19,
                given(71, 71)[2:] + b"\0\0", record=TWO_ENDS),
    ]


# Required heads: -1,000 with losses of 0, which no rating has, to 268,373,825

def required_heads():
    """63 times the greatest loss is 268,365,825; elevation 6,000, free head 1,000 and meter
    loss 1,000 make 268,373,825, which is 0x10000000 less 61,631, or 0xf0bf."""
    cellar = head(low(-1000, 0, 0), G=0)
    most = head(section(chain(63), 63, elevation=6000, free=1000), meter=1000)
    return [
        heading("the least required head", 0, given(0), record=cellar, holds=set(),
                lines=["heads 0 " + "fffffc18" "00000000" "01", words("heads", (-1000, 0, 1))]),
        headed("loss 1, the least that rating has", (-999, 0, 1), 1, record=cellar),
        headed("required head -1", (-1, 0, 1), 999, record=cellar),
        headed("required head 0", (0, 0, 1), 1000, record=cellar),
        headed("required head 1, guaranteed 0", (1, 1, 1), 1001, record=cellar),
        headed("required head 1, guaranteed 1", (1, 0, 1), 1001, record=head(cellar, G=1)),
        headed("required head 2, guaranteed 1", (2, 1, 1), 1002, record=head(cellar, G=1)),
        headed("required head -1000, guaranteed 6000", (-1000, 0, 1), 0,
               record=head(cellar, G=6000)),
        headed("two ends below the pump, losses 0", (-450, 0, 2), 0, 0, record=ends(-800, -700)),
        headed("63 sections at the pump, all at the least", (-1000, 0, 1), *[0] * 63,
               record=head(house([(0, 7, 80, 100, -1000, 0)] * 63, {7: 71}), meter=0)),
        headed("chain of 63, losses 0", (850, 350, 63), *[0] * 63, record=chain(63)),
        heading("the greatest required head", 0, given(*[MOST] * 63), record=head(most, G=0),
                holds=set(), lines=["heads 0 " + "0fff0f41" "0fff0f41" "3f",
                                    words("heads", (268_373_825, 268_373_825, 63))]),
        headed("the greatest required head, guaranteed 6000", (268_373_825, 268_367_825, 63),
               *[MOST] * 63, record=head(most, G=6000)),
    ]


def pump_heads():
    """With loss 71 the own case requires 921; at elevation 0 it requires 250 and the loss."""
    return [headed(f"loss 71, guaranteed head {given_head}", (921, pump, 1), 71,
                   record=head(OWN, G=given_head))
            for given_head, pump in ((0, 921), (920, 1), (921, 0), (922, 0), (6000, 0))] + [
        headed(f"guaranteed head 500, loss {loss}", (250 + loss, pump, 1), loss, record=low(0))
        for loss, pump in ((0, 0), (249, 0), (250, 0), (251, 1), (252, 2))] + [
        headed("required head 1 under the guaranteed, by one end of two", (499, 0, 2), 0, 249,
               record=ends(0, 0)),
        headed("required head 1 over the guaranteed, by one end of two", (501, 1, 2), 250, 251,
               record=ends(0, 0)),
    ]


# The sections' own losses

def own_losses():
    """In a row of three at 600, the last with free head 200, losses l, m and n reach 600 + l,
    600 + l + m and 800 + l + m + n. Were they path losses, the ends would reach 600 + l, 600 + m
    and 800 + n."""
    row = tree((0, 600), (1, 600), (2, 600))
    fork = tree((0, 600), (1, 600), (1, 600))
    return [
        headed("row of three, losses 100, 50, 20: not 870", (1020, 520, 3), 100, 50, 20,
               record=row),
        headed("row of three, losses 20, 50, 100: not 950", (1020, 520, 3), 20, 50, 100,
               record=row),
        headed("row of three, losses 1000, 0, 0: not 1650 by section 1", (1850, 1350, 3), 1000, 0,
               0, record=row),
        headed("row of three, losses 0, 1000, 0: not 1650 by section 2", (1850, 1350, 3), 0, 1000,
               0, record=row),
        headed("row of three, losses 0, 0, 1000", (1850, 1350, 3), 0, 0, 1000, record=row),
        headed("fork, losses 100, 30, 40: not 890", (990, 490, 3), 100, 30, 40, record=fork),
        headed("fork, losses 100, 40, 30: not 890", (990, 490, 2), 100, 40, 30, record=fork),
        headed("fork, losses 0, 0, 40", (890, 390, 3), 0, 0, 40, record=fork),
        # Section 2 is at the pump: what section 1 loses is no part of its path.
        headed("two at the pump, losses 1000, 0", (1850, 1350, 1), 1000, 0, record=ends(600, 600)),
        headed("two at the pump, losses 0, 1000", (1850, 1350, 2), 0, 1000, record=ends(600, 600)),
        headed("section 4 under 1, section 3 under 2", (1053, 553, 3), 1, 200, 3, 4,
               record=tree((0, 600), (0, 600), (2, 600), (1, 600))),
        headed("section 4 under 1, section 3 under 2, the other way", (1054, 554, 4), 200, 1, 3, 4,
               record=tree((0, 600), (0, 600), (2, 600), (1, 600))),
        # 1 + 2 + ... + 63 is 2,016.
        headed("chain of 63, losses 1 to 63", (2866, 2366, 63), *range(1, 64), record=chain(63)),
        headed("chain of 63, losses 63 to 1", (2866, 2366, 63), *range(63, 0, -1),
               record=chain(63)),
        headed("star of 63, losses 1 to 63", (913, 413, 63), *range(1, 64),
               record=ends(*[600] * 63)),
    ]


# The dictating section

def dictating():
    """Ties go to the lowest number, whatever stands between those that tie."""
    level = house([INNER, under(1, (0, 7, 80, 100, 600, 0))], {7: 71})
    return [
        headed("two equal ends, losses 0: the first", (850, 350, 1), 0, 0, record=ends(600, 600)),
        headed("two equal ends, losses 13: the first", (863, 363, 1), 13, 13,
               record=ends(600, 600)),
        headed("two ends tie by other losses: the first", (876, 376, 1), 26, 13,
               record=ends(600, 613)),
        headed("the second end 1 higher", (877, 377, 2), 26, 13, record=ends(600, 614)),
        headed("the second end 1 lower", (876, 376, 1), 26, 13, record=ends(600, 612)),
        headed("ends 2 and 3 tie over end 1", (873, 373, 2), 12, 13, 13,
               record=ends(610, 610, 610)),
        headed("ends 1 and 3 tie over end 2", (873, 373, 1), 13, 12, 13,
               record=ends(610, 610, 610)),
        headed("all three ends tie", (873, 373, 1), 13, 13, 13, record=ends(610, 610, 610)),
        headed("the last of three ends", (902, 402, 3), 13, 26, 52, record=ends(600, 600, 600)),
        headed("a section and its end tie, the end loses 0", (721, 221, 1), 71, 0, record=level),
        headed("a section and its end, the end loses 1", (722, 222, 2), 71, 1, record=level),
        headed("a section without a kind dictates", (6063, 5563, 1), 13, 13, 13,
               record=tree((0, 6000), (1, 600), (1, 600))),
        headed("a section without a kind ties with its ends", (876, 376, 1), 13, 13, 13,
               record=tree((0, 813), (1, 600), (1, 600))),
        headed("a section without a kind 1 lower than its ends", (876, 376, 2), 13, 13, 13,
               record=tree((0, 812), (1, 600), (1, 600))),
        headed("two ends under a section tie", (876, 376, 2), 13, 13, 13,
               record=tree((0, 600), (1, 600), (1, 600))),
        headed("63 ends tie", (863, 363, 1), *[13] * 63, record=ends(*[600] * 63)),
        headed("63 ends, the last 1 more", (864, 364, 63), *[13] * 62, 14,
               record=ends(*[600] * 63)),
    ]


# Order

def order_losses(numbers):
    """Losses for two sections for which 19 holds, or not."""
    return given(71, MOST + 1) if 19 in numbers else given(71, 71)


ORDER = {
    1: [{1}, {1, 2}, {1, 14}, {1, 19}, {1, 2, 3, 4, 5, 6, 7, 8, 9, 14, 19}],
    2: [{2}, {2, 3}, {2, 19}], 3: [{3}, {3, 4}, {3, 19}], 4: [{4}, {4, 5}, {4, 19}],
    5: [{5}, {5, 6}, {5, 19}], 6: [{6}, {6, 7}, {6, 19}],
    7: [{7}, {7, 8}, {7, 19}, {7, 8, 9, 14, 19}],
    8: [{8}, {8, 9}, {8, 19}, {8, 14}],
    9: [{9}, {9, 19}, {9, 14}, {9, 14, 19}],
    19: [{19}, {14, 19}],
    14: [{14}],
}


def order():
    """19 comes after 9 and before 14."""
    return [heading(listed(each), expect, order_losses(each), record=flow_broken(each), holds=each,
                    room=8 if 14 in each else 9)
            for expect, sets in ORDER.items() for each in sets] + [
        heading("19 and 14, no losses, room 0", 19, b"", room=0, holds={14, 19}),
        heading("19 and 14, a byte too few", 19, given(71)[:3], room=8, holds={14, 19}),
        heading("9 and 19, a loss too few", 9, given(71), record=flow_broken({9}), holds={9, 19}),
        heading("nothing lent at all", 1, b"", record=b"", room=0),
        heading("no job", 1, given(71), record=b""),
    ]


def refusals():
    """8 and 9 are the flow call's, those of the hour and of a section among them."""
    return [
        refused("length field 51", 1, given(71), record=head(OWN, stated=51)),
        heading("S 64 in its length", 3, given(*[71] * 64), record=star(64)),
        heading("S 2 where one section stands", 4, given(71, 71), record=head(OWN, S=2)),
        refused("hour sum 400100000", 8, given(71), record=house([end(8, 4001)], {8: 4001})),
        refused("own case, 18 fixtures: m and hour sum over", 9, given(71),
                record=section(OWN, 1, fixtures=18)),
        refused("own case, 70 fixtures: only the hour sum over", 9, given(71),
                record=section(OWN, 1, fixtures=70)),
        headed("own case, 71 fixtures", (921, 421, 1), 71, record=section(OWN, 1, fixtures=71)),
        refused("kind 11 in ends of 50 and 200: only section 1 over", 9, given(71, 71),
                record=house([end(11, 50), end(11, 200)], {11: 3200})),
        refused("residents of another kind", 7, given(71), record=people(OWN, {1: 1})),
        refused("kind 13 in section 2", 5, given(71, 71), record=section(TWO_ENDS, 2, kind=13)),
    ]


# Hot and cold lines: the service has a part in 8 and 9 alone

def services():
    """Losses of the lines, 28 and 23 cm, as rating_vectors.py derives them."""
    hot = serving(tree((0, 600), (1, 600), (2, 600)), 2)
    return [
        headed("own case, total in version 2, loss 71", (921, 421, 1), 71, record=OWN_TOTAL),
        headed("own case, cold, loss 23", (873, 373, 1), 23, record=OWN_COLD),
        headed("own case, hot, loss 28", (878, 378, 1), 28, record=OWN_HOT),
        headed("own case, hot, loss 71", (921, 421, 1), 71, record=OWN_HOT),
        heading("own case, hot, loss 28, in bytes", 0, given(28), record=OWN_HOT, holds=set(),
                lines=["heads 0 " "0000036e" "0000017a" "01"]),
        headed("row of three, hot, losses 100, 50, 20", (1020, 520, 3), 100, 50, 20, record=hot),
        headed("own case, hot, loss 4259775", (4_260_625, 4_260_125, 1), MOST, record=OWN_HOT),
        refused("own case, hot, loss 4259776", 19, given(MOST + 1), record=OWN_HOT),
        refused("own case, hot, two losses", 19, given(28, 28), record=OWN_HOT),
        refused("own case, hot, no losses", 19, b"", record=OWN_HOT),
        refused("own case, hot, room 8", 14, given(28), record=OWN_HOT, room=8),
        headed("chain of 63, cold, losses 1 to 63", (2866, 2366, 63), *range(1, 64),
               record=serving(chain(63), 1)),
        refused("own case, 70 fixtures, version 2", 9, given(71),
                record=section(OWN_TOTAL, 1, fixtures=70)),
        headed("own case, 70 fixtures, cold", (921, 421, 1), 71,
               record=section(OWN_COLD, 1, fixtures=70)),
        headed("own case, 70 fixtures, hot", (921, 421, 1), 71,
               record=section(OWN_HOT, 1, fixtures=70)),
        refused("own case, 56 fixtures, hot", 9, given(71),
                record=section(OWN_HOT, 1, fixtures=56)),
        refused("service 3", 3, given(71), record=serving(OWN, 3)),
        heading("version 2 in 50 bytes", 4, given(71), record=head(OWN, version=2)),
    ]


def totals():
    """The same in version 2, of the vectors above."""
    return in_total(own_case() + rooms() + required_heads() + pump_heads() + own_losses()
                    + dictating())


def line_order():
    sets = [(expect, each) for expect, found in ORDER.items() for each in found if 2 not in each]
    return [heading(f"{listed(each)}, {SERVICES[service]}", expect, order_losses(each), holds=each,
                    record=flow_broken(each, service), room=8 if 14 in each else 9)
            for (expect, each), service in zip(sets, itertools.cycle(SERVICES))]


# Random houses

def random_losses(rng, count):
    """Small ones, so that elevations matter, some of them 0, and now and then any."""
    return given(*[rng.choice((0, rng.randint(0, 60), rng.randint(0, 600)))
                   if rng.randrange(40) else rng.randint(0, MOST) for _ in range(count)])


def random_houses():
    """With losses of anybody, and with those of the losses call."""
    rng = random.Random(4)
    counts = [1, 2, 3, 4, 5] + [rng.randint(6, 40) for _ in range(20)] + [63]
    anybody = [heading(f"random house {i}, {count} sections", 0, random_losses(rng, count),
                       record=random_measures(rng, random_house(rng, count)), holds=set())
               for i, count in enumerate(counts, start=1)]
    rated = [random_parts(rng, count) for count in (1, 2, 3, 5, 8, 13, 21, 34, 63)]
    return anybody + [
        heading(f"random house of {parts['record'][6]}, losses of the losses call", 0,
                lost_by(**parts), record=parts["record"], holds=set()) for parts in rated]


def random_lines():
    rng = random.Random(9)
    counts = [1, 2, 3] + [rng.randint(4, 40) for _ in range(6)]
    records = [random_measures(rng, serving(random_house(rng, count, service), service))
               for count, service in zip(counts, itertools.cycle(SERVICES))]
    return [heading(f"random house {i}, {record[6]} sections, {SERVICES[record[40]]}", 0,
                    random_losses(rng, record[6]), record=record, holds=set())
            for i, record in enumerate(records, start=1)]


def lost_by(record, sizes, numbers):
    """What the losses call gives, gathered."""
    _, result = losses.losses(record, sizes, numbers, 10 * len(numbers))
    return heads.encode(losses.losses_in(result))


GROUPS = [
    ("heads, own case", own_case), ("heads, losses of anybody", anybodys), ("heads, room", rooms),
    ("heads, lengths of lists", list_lengths), ("heads, the most loss", bounds),
    ("heads, required heads", required_heads), ("heads, pump heads", pump_heads),
    ("heads, own losses", own_losses), ("heads, dictating sections", dictating),
    ("heads, services", services), ("heads, total in version 2", totals),
    ("heads, order", order), ("heads, version 2, order", line_order),
    ("heads, refusals", refusals), ("heads, random houses", random_houses),
    ("heads, random houses of lines", random_lines),
]


# The answers

def heads_lines(parts):
    room, record, lost = parts
    number, result = heads.heads(record, lost, room_of(room))
    answer = [buffer_line("heads", (number, result), room_of(room))]
    if number != 0:
        return answer
    return answer + [words("heads", heads.figures(job.decode(record), heads.decode(lost)))]


CALLS = {"h": Call("heads", lent, heads_lines, stored_by(heads.heads))}
