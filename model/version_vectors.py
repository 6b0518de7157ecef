"""Vectors for the version and the service of a record, document 02's request L4; vectors.py tells
their lines, and job_vectors.py has the records of version 1."""

import itertools

import job_vectors
from edit import OWN, fields, head, house, people, put, section, serving, stating
from houses import (END, OWN_COLD, OWN_HOT, OWN_TOTAL, SERVICES, TWO_ENDS, broken, chain, halving,
                    star, twelve_kinds)
from job_vectors import FF, READING_ORDER, WRITING_ORDER, copying, writing
from vector import Vector, listed

# Reading

def own_answer(service):
    """The answer to the own case in version 2, by hand: 51 bytes, and nothing else has moved."""
    return [
        "read 0",
        f"version 2 {service}",
        "head 3 1 24 50 500 1200 1500",
        "residents 0 0 0 0 0 0 71 0 0 0 0 0",
        "section 1 0 7 80 100 600 200",
        "write 0 0000003302030118003201f404b005dc"
        "000000000000000000000000004700000000000000000000"
        f"{service:02x}" "000700500064025800c8",
    ]


def own_case():
    """Version 2 with service 0 stays version 2."""
    return [Vector(f"own case, {name}", serving(OWN, service), 0, set(), lines=own_answer(service))
            for service, name in SERVICES.items()]


def versions():
    """A version that is neither is 2 in the length of version 2 as in that of version 1."""
    return [Vector(f"version {version} in 51 bytes", head(OWN_HOT, version=version), 2)
            for version in (0, 3, 4, 129, 130, 255)] + [
        Vector("version 3 and k 4, in 51 bytes", head(OWN_HOT, version=3, k=4), 2),
        Vector("version 3 and service 3, in 51 bytes", head(serving(OWN, 3), version=3), 2),
        Vector("version 0 and k 4", head(OWN, version=0, k=4), 2, {2, 3}),
        Vector("version 3 in 40 bytes", head(OWN[:40], version=3, stated=40), 2),
        Vector("version 3 in 39 bytes", head(OWN[:39], version=3, stated=39), 1),
        Vector("version 3, length field 52", head(OWN_HOT, version=3, stated=52), 1),
    ]


WRONG_SERVICES = (3, 4, 16, 128, 129, 130, 255)


def services():
    """Byte 40 is the service in version 2 alone; in version 1 it is section 1's parent."""
    return [Vector(f"service {service}", serving(OWN, service), 3, {3})
            for service in WRONG_SERVICES] + [
        Vector(f"version 1 with byte 40 = {parent}", section(OWN, 1, parent=parent), 5, {5})
        for parent in (1, 2, 3, 255)] + [
        Vector("hot, section 1 under 2", section(OWN_HOT, 1, parent=2), 5, {5}),
        Vector("service 3 and section 1 under 2", section(serving(OWN, 3), 1, parent=2), 3, {3, 5}),
        Vector("service 3 and k 4", head(serving(OWN, 3), k=4), 3, {3}),
        Vector("service 3 of two ends", serving(TWO_ENDS, 3), 3, {3}),
        Vector("service 3 of 63 sections", serving(halving(63), 3), 3, {3}),
    ]


def short_heads():
    """A record that ends before its service byte is 4, where its head fields are in range."""
    cut = head(OWN[:40], version=2, stated=40)
    none = people(cut, {7: 0})
    service = stating(OWN_HOT[:41])
    return [
        Vector("version 2 in 40 bytes", cut, 4),
        Vector("version 2 in 40 bytes, S 63", head(cut, S=63), 4),
        Vector("version 2 in 40 bytes, k 4", head(cut, k=4), 3),
        Vector("version 2 in 40 bytes, limit 0", head(cut, limit=0), 3),
        Vector("version 2 in 40 bytes, S 0", head(none, S=0), 3),
        Vector("version 2 in 40 bytes, S 64", head(cut, S=64), 3),
        Vector("version 2 in 40 bytes, stating 41", head(cut, stated=41), 1),
        Vector("version 2 in 41 bytes, S 1", service, 4),
        Vector("version 2 in 41 bytes, S 0", head(people(service, {7: 0}), S=0), 3, {3}),
        Vector("version 2 in 41 bytes, service 3", put(service, 40, 1, 3), 3),
        Vector("version 2 in 39 bytes, stating 39", stating(OWN_HOT[:39]), 1),
    ]


def lengths():
    """40 + 10 x S in version 1, 41 + 10 x S in version 2."""
    return [
        Vector("version 2 in 50 bytes", head(OWN, version=2), 4),
        Vector("version 2 in 50 bytes, byte 40 = 3", head(section(OWN, 1, parent=3), version=2), 3),
        Vector("version 2 in 50 bytes, k 4", head(OWN, version=2, k=4), 3),
        Vector("version 2 in 51 bytes", OWN_COLD, 0, set()),
        Vector("version 2 in 52 bytes", stating(OWN_COLD + b"\0"), 4, {4}),
        Vector("version 1 in 51 bytes, a 0 at the end", stating(OWN + b"\0"), 4, {4}),
        Vector("version 1 in 51 bytes, a service at 40", head(OWN_HOT, version=1), 4),
        Vector("version 1 in 51 bytes, a 0 at 40", head(OWN_TOTAL, version=1), 4),
        Vector("version 2, two sections in 60 bytes", head(TWO_ENDS, version=2), 4),
        Vector("version 2, two sections in 61 bytes", serving(TWO_ENDS, 1), 0, set()),
        Vector("version 2, S 2 in 51 bytes", head(OWN_HOT, S=2), 4),
        Vector("version 2, S 1 in 61 bytes", head(serving(TWO_ENDS, 2), S=1), 4, {4}),
        Vector("version 2, 63 sections in 670 bytes", head(chain(63), version=2), 4),
        Vector("version 2, 63 sections in 671 bytes", serving(chain(63), 2), 0, set()),
        Vector("version 1, 63 sections in 671 bytes", stating(chain(63) + b"\0"), 4, {4}),
        Vector("version 2, last byte off", OWN_HOT[:-1], 1),
        Vector("version 2, one byte more", OWN_HOT + b"\0", 1, {1, 4}),
        Vector("version 2, length field 50", head(OWN_HOT, stated=50), 1, {1}),
        Vector("version 2, length field 52", head(OWN_HOT, stated=52), 1, {1}),
        Vector("version 2, length field 65587", head(OWN_HOT, stated=0x10033), 1, {1}),
    ]


def in_version_2(vectors):
    """The same records with the services in turn, which have no part in the rules."""
    return [each._replace(name=f"{each.name}, {SERVICES[service]}",
                          data=serving(each.data, service))
            for each, service in zip(vectors, itertools.cycle(SERVICES))]


def head_values():
    return in_version_2(job_vectors.head_values())


def section_values():
    return in_version_2(job_vectors.section_values())


def sections():
    return in_version_2(job_vectors.kinds_and_fixtures() + job_vectors.parents()
                        + job_vectors.ends_without_kind())


def residents():
    return in_version_2(job_vectors.residents_without_fixtures()
                        + job_vectors.fixtures_without_residents()
                        + job_vectors.residents_and_fixtures())


def houses():
    return in_version_2(job_vectors.small_houses() + job_vectors.long_houses())


def order():
    """3 by k 4 and by service 3. 2 has no part in version 2."""
    sets = [(expect, each) for expect, found in READING_ORDER.items() for each in found
            if 2 not in each]
    return [Vector(f"{listed(each)}, {SERVICES[service]}", broken(each, service), expect, each)
            for (expect, each), service in zip(sets, itertools.cycle(SERVICES))] + [
        Vector(f"{listed(each)}, by service 3", broken(each - {3}, 3), expect, each)
        for expect, each in sets + [(1, {1, 3, 4, 5, 6, 7})] if 3 in each]


# Writing

def versioned(raw, version, service):
    """The writer's raw fields with another version and service."""
    return put(put(raw, 2, 1, version), 3, 1, service)


def written(name, version, service, expect, holds=None, record=OWN, room=60):
    return writing(name, versioned(fields(record, room), version, service), expect, holds)


def writer_versions():
    """2 comes before 3, whatever the service is."""
    return [written(f"version {version}", version, 0, 2, {2})
            for version in (0, 3, 4, 128, 129, 130, 255)] + [
        written("version 3, hot", 3, 2, 2),
        written("version 0, hot", 0, 2, 2),
        written("version 3 and service 3", 3, 3, 2),
        written("version 0 and k 4", 0, 0, 2, {2, 3}, record=head(OWN, k=4)),
        written("version 3 and k 4", 3, 0, 2, {2, 3}, record=head(OWN, k=4)),
        written("version 3 and limit 0, hot", 3, 2, 2, record=head(OWN, limit=0)),
        written("version 0 and length 0", 0, 0, 2, {2, 5}, record=section(OWN, 1, length=0)),
        written("version 3, room 0", 3, 0, 2, {2, 14}, room=0),
        written("version 0, S 64, room 0", 0, 0, 2, record=head(OWN, S=64), room=0),
        written("version 3, S 0 and no room", 3, 0, 2, record=head(OWN, S=0), room=0),
    ]


def writer_services():
    """The writer is given a service in version 1 too, and there it must be 0."""
    return [written(f"version 1, service {service}", 1, service, 3, {3})
            for service in (1, 2) + WRONG_SERVICES] + [
        written(f"version 2, service {service}", 2, service, 3, {3})
        for service in WRONG_SERVICES] + [
        written("version 1, service 0", 1, 0, 0, set()),
        written("version 2, service 0", 2, 0, 0, set()),
        written("version 2, service 1", 2, 1, 0, set()),
        written("version 2, service 2", 2, 2, 0, set()),
        written("version 1, service 1, k 4", 1, 1, 3, {3}, record=head(OWN, k=4)),
        written("version 1, service 2, length 0", 1, 2, 3, {3, 5},
                record=section(OWN, 1, length=0)),
        written("version 1, service 2, room 0", 1, 2, 3, {3, 14}, room=0),
        written("version 2, service 3, residents of another kind", 2, 3, 3, {3, 7},
                record=people(OWN, {1: 1})),
        written("version 2, service 3, room 50", 2, 3, 3, {3, 14}, room=50),
    ]


def writer_rooms():
    """The record of version 2 has a byte more."""
    hot, two, many = OWN_HOT, serving(TWO_ENDS, 1), serving(halving(63), 2)
    return [
        writing("hot, room 51", fields(hot, 51), 0, set()),
        writing("hot, room 50", fields(hot, 50), 14, {14}),
        writing("hot, room 52", fields(hot, 52), 0, set()),
        writing("hot, room 100", fields(hot, 100), 0, set()),
        writing("hot, room 41", fields(hot, 41), 14, {14}),
        writing("hot, room 0", fields(hot, 0), 14, {14}),
        writing("total in version 2, room 51", fields(OWN_TOTAL, 51), 0, set()),
        writing("total in version 2, room 50", fields(OWN_TOTAL, 50), 14, {14}),
        writing("total in version 1, room 50", fields(OWN, 50), 0, set()),
        writing("two sections, cold, room 61", fields(two, 61), 0, set()),
        writing("two sections, cold, room 60", fields(two, 60), 14, {14}),
        writing("twelve sections, hot, room 161", fields(serving(twelve_kinds(), 2), 161), 0),
        writing("twelve sections, hot, room 160", fields(serving(twelve_kinds(), 2), 160), 14,
                {14}),
        writing("63 sections, hot, room 671", fields(many, 671), 0, set()),
        writing("63 sections, hot, room 670", fields(many, 670), 14, {14}),
        writing("63 sections, cold, room 1000", fields(serving(chain(63), 1), 1000), 0, set()),
    ]


def writer_slots():
    """Slots past S have no influence in version 2 either."""
    return [
        writing("hot, one slot past S full of ff", fields(OWN_HOT, 51, FF), 0, set()),
        writing("cold, 62 slots past S full of ff", fields(OWN_COLD, 60, FF * 62), 0, set()),
        writing("hot, S 2, one slot given", fields(head(OWN_HOT, S=2), 61), 5),
        writing("hot, S 64 with 63 slots", fields(head(serving(star(63), 2), S=64), 1000), 3),
        writing("hot, S 0", fields(head(OWN_HOT[:41], S=0), 41), 3),
    ]


def writer_values():
    """The head and section values that are out of range, in version 2."""
    refused = [each for each in head_values() + section_values() if each.expect]
    return [writing(each.name, fields(each.data, 51), each.expect) for each in refused]


# Sets of numbers with 2, which the writer gives first.
WITH_2 = [{2}, {2, 3}, {2, 5}, {2, 6}, {2, 7}, {2, 14}, {2, 3, 5, 6, 7, 14}]


def writer_order():
    sets = [(expect, each) for expect, found in WRITING_ORDER.items() for each in found]
    return [writing(f"{listed(each)}, {SERVICES[service]}",
                    fields(broken(each, service), 0 if 14 in each else 61), expect, each)
            for (expect, each), service in zip(sets, itertools.cycle(SERVICES))] + [
        writing(listed(each), fields(broken(each), 0 if 14 in each else 60), 2, each)
        for each in WITH_2] + [
        writing(f"{listed(each)}, by service 1 in version 1",
                versioned(fields(broken(each - {3}), 0 if 14 in each else 60), 1, 1), expect, each)
        for expect, each in sets if 3 in each]


# Copying

def copied(name, record, room):
    """A vector for a copy with all its bytes."""
    return copying(name, record, room, 0, set(),
                   ["copy 0 " + record.hex() + (room - len(record)) * "a5"])


def copies():
    """A copy keeps version and service."""
    return [copied(f"own case, {name}, room 51", serving(OWN, service), 51)
            for service, name in SERVICES.items()] + [
        copied("own case, hot, room 60", OWN_HOT, 60),
        copied("own case in version 1, room 51", OWN, 51),
        copied("halving tree of 63, cold, room 671", serving(halving(63), 1), 671),
        copying("own case, hot, room 50", OWN_HOT, 50, 14, {14}, ["copy 14 " + 50 * "a5"]),
        copying("own case, hot, room 0", OWN_HOT, 0, 14, {14}),
        copying("halving tree of 63, cold, room 670", serving(halving(63), 1), 670, 14, {14}),
        copying("service 3", serving(OWN, 3), 100, 3, {3}),
        copying("service 3, room 0", serving(OWN, 3), 0, 3, {3, 14}),
        copying("version 3 in 51 bytes", head(OWN_HOT, version=3), 100, 2),
        copying("version 2 in 40 bytes", head(OWN[:40], version=2, stated=40), 100, 4),
        copying("version 2 in 40 bytes, k 4", head(OWN[:40], version=2, stated=40, k=4), 100, 3),
        copying("version 2 in 50 bytes", head(OWN, version=2), 100, 4),
        copying("version 1 in 51 bytes", stating(OWN + b"\0"), 100, 4, {4}),
        copying("version 1 with byte 40 = 3", section(OWN, 1, parent=3), 100, 5, {5}),
    ] + [copying(f"{number}, hot, room 100", broken({number}, 2), 100, number, {number})
         for number in (1, 3, 4, 5, 6, 7)]


def round_trips():
    """Records of many fields that differ in version and service alone."""
    low = head(house([END], {7: 65535}), meter=0x0102, G=0x0304, H=0x0506, limit=0x0708)
    return [Vector("eight different bytes, version 1", low, 0, set(), lines=["version 1 0"])] + [
        Vector(f"eight different bytes, {name}", serving(low, service), 0, set(),
               lines=[f"version 2 {service}"]) for service, name in SERVICES.items()] + [
        Vector(f"all twelve kinds, {name}", serving(twelve_kinds(), service), 0, set(),
               lines=[f"version 2 {service}"]) for service, name in SERVICES.items()] + [
        Vector(f"halving tree of 63, {name}", serving(halving(63), service), 0, set(),
               lines=[f"version 2 {service}"]) for service, name in SERVICES.items()]


GROUPS = [
    ("version 2, own case", own_case), ("versions, both lengths", versions),
    ("services", services), ("version 2, short records", short_heads),
    ("version 2, lengths", lengths), ("version 2, head values", head_values),
    ("version 2, section values", section_values), ("version 2, sections", sections),
    ("version 2, residents and fixtures", residents), ("version 2, houses", houses),
    ("version 2, order", order), ("version 2, round trips", round_trips),
    ("writer, versions", writer_versions), ("writer, services", writer_services),
    ("writer, version 2, room", writer_rooms), ("writer, version 2, slots", writer_slots),
    ("writer, version 2, values", writer_values), ("writer, both versions, order", writer_order),
    ("copying, version 2", copies),
]

# The calls are those of job_vectors.py.
CALLS = {}
