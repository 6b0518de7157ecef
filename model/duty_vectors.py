"""Vectors for the duty call, the house's design flow; vectors.py tells their lines."""

import demand
import job
from edit import OWN, head, house, section
from flow_vectors import (BATHS_BESIDE_BASINS, BATHS_OVER_BASINS, bath_and, end, flow_broken, inner,
                          one_kind)
from houses import chain, star
from vector import (Call, Vector, buffer_bytes, buffer_line, listed, room_of, roomed, with_room,
                    words)


def asking(name, record, room, expect, holds=None, lines=None):
    """A vector for the duty call with a buffer of so many bytes."""
    return Vector(name, with_room(record, room), expect, holds, "d", lines)


def accepted(name, record, duty, *flows):
    """A vector for an accepted job in exactly the room of the result, with its
    duty and, where given, the flows of its sections."""
    sections = [words("flows", flows)] if flows else []
    return asking(name, record, 4, 0, set(), [f"house {duty}"] + sections)


def refused(name, record, number):
    """A vector for a job that one condition refuses, with enough room."""
    return asking(name, record, 4, number, {number})


# Examples

def examples():
    """As for the flow call: document 004's dwelling has no fixtures there, and
    the duty doesn't depend on them."""
    return [
        accepted("document 01's own case", OWN, 2052, 2052),
        accepted("document 004, example 1, dwelling of 109: 2.17 l/s; here 2167.17 ml/s goes "
                 "up to 2168", house([end(1, 124)], {1: 109}), 2168, 2168),
        accepted("the same dwelling in two halves at the pump",
                 house([end(1, 62), end(1, 62)], {1: 109}), 2168, 1461, 1461),
    ]


# Rooms

def rooms():
    """2,052 is 804 in hex. Every result has 4 bytes, whatever S is."""
    done = "duty 0 00000804"
    return [
        asking("own case, room 4", OWN, 4, 0, set(), [done]),
        asking("own case, room 3", OWN, 3, 14, {14}, ["duty 14 a5a5a5"]),
        asking("own case, room 5", OWN, 5, 0, set(), [done + "a5"]),
        asking("own case, room 1", OWN, 1, 14, {14}),
        asking("own case, room 0", OWN, 0, 14, {14}),
        asking("own case, room 16", OWN, 16, 0, set(), [done + 12 * "a5"]),
        asking("own case, room 1000", OWN, 1000, 0, set()),
        asking("chain of 63, room 4", chain(63), 4, 0, set(), [done]),
        asking("chain of 63, room 3", chain(63), 3, 14, {14}),
    ]


# Order

ORDER = {
    1: [{1}, {1, 14}, {1, 2, 3, 4, 5, 6, 7, 8, 9, 14}],
    2: [{2}, {2, 14}],
    3: [{3}, {3, 14}],
    4: [{4}, {4, 14}],
    5: [{5}, {5, 14}],
    6: [{6}, {6, 14}],
    7: [{7}, {7, 8, 9}, {7, 14}],
    8: [{8}, {8, 9}, {8, 14}],
    9: [{9}, {9, 14}],
    14: [{14}],
}


def order():
    return [asking(listed(each), flow_broken(each), 3 if 14 in each else 4, expect, each)
            for expect, sets in ORDER.items() for each in sets]


def refusals():
    """8 and 9 are the flow call's, those of the hour and of a section among
    them, although neither has a part in the duty."""
    return [
        asking("empty record", b"", 4, 1),
        asking("S 64 in its length", star(64), 4, 3),
        refused("m 111138889, hour sum 400100000", house([end(8, 4001)], {8: 4001}), 8),
        refused("own case, 18 fixtures: m and hour sum over", section(OWN, 1, fixtures=18), 9),
        refused("own case, 70 fixtures: only the hour sum over", section(OWN, 1, fixtures=70), 9),
        accepted("own case, 71 fixtures", section(OWN, 1, fixtures=71), 2052, 2052),
        refused("kind 11 in ends of 50 and 200: only section 1 over",
                house([end(11, 50), end(11, 200)], {11: 3200}), 9),
    ]


# Several sections at the pump

def pump_sections():
    """The house's flow is neither a section's nor a sum of theirs."""
    ends = [end(7, 80), end(3, 90), end(12, 300), end(1, 50)]
    return [
        accepted("20 and 60 fixtures at the pump", house([end(7, 20), end(7, 60)], {7: 71}),
                 2052, 979, 1739),
        accepted("60 and 20 fixtures at the pump", house([end(7, 60), end(7, 20)], {7: 71}),
                 2052, 1739, 979),
        accepted("the same under a section",
                 house([inner(), end(7, 20, 1), end(7, 60, 1)], {7: 71}), 2052, 2052, 979, 1739),
        accepted("section 4 under 1, section 3 under 2",
                 house([inner(), inner(), end(7, 20, 2), end(7, 60, 1)], {7: 71}),
                 2052, 1739, 979, 979, 1739),
        accepted("four kinds at the pump", house(ends, {1: 40, 3: 60, 7: 71, 12: 500}),
                 3208, 2052, 969, 1201, 1240),
        accepted("two kinds that share all but the fixture's rate",
                 house([end(10, 100), end(11, 100)], {10: 100, 11: 100}), 833, 581, 600),
        accepted("all twelve kinds at the pump",
                 house([end(kind, 10 * kind) for kind in range(1, 13)],
                       {kind: 4 + kind for kind in range(1, 13)}),
                 1705, 501, 327, 364, 501, 483, 684, 784, 841, 402, 274, 257, 228),
        accepted("star of 63 with the most fixtures", house([end(8, 65535)] * 63, {8: 4000}),
                 42646, *[2002] * 63),
    ]


def rounded_shares():
    """A kind's share goes up once for the house. Alpha is 678,000 at 500,000,
    which gives 1017, and 678,001 at 500,001, which gives 1018."""
    return [
        # Each of the sections has 166,666.67 of the house's share 500,000.
        accepted("m 500000 where the sections' shares make 500001",
                 house([end(1, 50)] * 3, {1: 27}), 1017, 626, 626, 626),
        # 111,111.11 and 388,888.89.
        accepted("m 500001 where whole shares make 500000",
                 house([end(1, 100), end(7, 100)], {1: 6, 7: 15}), 1018, 535, 902),
    ]


def table_ends():
    """One resident of kind 12 has share 5,357.14."""
    return [
        accepted("m 5358", house([end(12, 65535)], {12: 1}), 140),
        accepted("m 10715", house([end(12, 65535)], {12: 2}), 140),
        accepted("m 16072", house([end(12, 65535)], {12: 3}), 144),
        accepted("m 111111112, hour sum 400000000", house([end(8, 4000)], {8: 4000}), 42646),
    ]


# The duty of 40 residents of each kind; flow_vectors.py has the flows of their sections.
ONE_KIND = {
    1: 1240, 2: 729, 3: 784, 4: 981, 5: 998, 6: 1316,
    7: 1483, 8: 1540, 9: 657, 10: 394, 11: 384, 12: 324,
}


def single_kinds():
    return [accepted(f"kind {kind} alone", one_kind(kind), duty)
            for kind, duty in ONE_KIND.items()]


# One tap

def tapped(name, record, duty, average, *flows):
    """A vector with its duty, the house's value by document 01 alone, and the flows of its
    sections."""
    lines = [f"average {average}", f"house {duty}", words("flows", flows)]
    return asking(name, record, 4, 0, set(), lines)


# Residents of two kinds at the pump, and the house's average, which 20 and 10 fixtures leave
# as it is: 298.48, 299.18 and 300.19, then 198.21, 199.84 and 200.31.
BESIDE_ONE_TAP = [
    ({11: 12, 1: 1}, 300, 299), ({12: 18, 1: 1}, 300, 300), ({12: 16, 6: 1}, 301, 301),
    ({11: 6, 10: 1}, 200, 199), ({11: 5, 10: 2}, 200, 200), ({11: 2, 10: 4}, 201, 201),
]


def one_tap():
    """The house's kinds are judged as a section's, and apart from the sections."""
    found = [
        tapped("one tap raises the house and a section", BATHS_OVER_BASINS, 300, 240, 300, 144),
        tapped("one tap raises the house and no section", BATHS_BESIDE_BASINS, 300, 240, 300, 144),
        tapped("one tap raises a section and not the house", bath_and(40), 358, 358,
               300, 300, 306, 326),
        tapped("one tap of 200 raises the house", house([end(12, 20), end(10, 2)], {12: 1, 10: 1}),
               200, 165, 140, 200),
        tapped("kinds 11 and 12: nothing is raised to 140",
               house([end(11, 20), end(12, 20)], {11: 1, 12: 1}), 140, 140, 140, 140),
    ]
    for residents, duty, average in BESIDE_ONE_TAP:
        (many, _), (few, _) = residents.items()
        vector = accepted(f"kinds {many} and {few}, average {average}",
                          house([end(many, 20), end(few, 10)], residents), duty)
        found.append(vector._replace(lines=[f"average {average}"] + vector.lines))
    return found


def fields_without_part():
    """Fields that the duty doesn't depend on."""
    edited = head(OWN, k=2, T=1, meter=0, G=0, H=1, limit=1)
    return [
        accepted("own case with another head", edited, 2052),
        accepted("own case with another section",
                 section(OWN, 1, fixtures=65535, length=1, elevation=-1000, free=0), 2052),
    ]


GROUPS = [
    ("duty, examples", examples), ("duty, room", rooms), ("duty, order", order),
    ("duty, refusals", refusals), ("duty, sections at the pump", pump_sections),
    ("duty, rounding", rounded_shares), ("duty, ends of the table", table_ends),
    ("duty, single kinds", single_kinds), ("duty, one tap", one_tap),
    ("duty, other fields", fields_without_part),
]


# The answers

def figure_lines(record):
    found = job.decode(record)
    return [f"average {demand.house_average(found)}", f"house {demand.house_flow(found)}",
            words("flows", demand.section_flows(found))]


def duty_lines(raw):
    room, record = room_of(raw), raw[2:]
    number, result = demand.duty(record, room)
    answer = [buffer_line("duty", (number, result), room)]
    return answer + figure_lines(record) if number == 0 else answer


def duty_bytes(raw):
    return buffer_bytes(demand.duty(raw[2:], room_of(raw)), room_of(raw))


CALLS = {"d": Call("duty", roomed, duty_lines, duty_bytes)}
