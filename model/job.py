"""A model of the job record, written from document 01 and document 02's request L4, without the
code (copy: docs/DECISIONS.md, 15).

    read(data)        gives (0, job), or (number, None) with a number from 1 to 7
    write(job, room)  gives (0, record), or (number, None) with 2, 3, 5, 6, 7 or 14
    copy(data, room)  gives (0, data), or (number, None) with 1 to 7 or 14

The layout knows offsets and no rules. The rules know fields and no offsets.
The quoted sentences are those of "The job record", "Refused orders" and L4.
"""

import struct
from typing import NamedTuple


class Section(NamedTuple):
    parent: int
    kind: int
    fixtures: int
    length: int     # decimetres
    elevation: int  # cm above the pump axis, signed
    free: int       # cm


class Job(NamedTuple):
    version: int
    service: int
    k: int
    S: int
    T: int
    meter: int
    G: int
    H: int
    limit: int
    residents: tuple  # of kinds 1 to 12, in this order
    slots: tuple      # 63 sections; a slot past S has no influence


SLOTS = 63
KINDS = range(1, 13)
EMPTY = Section(0, 0, 0, 0, 0, 0)

# "0 total, 1 cold, 2 hot"
TOTAL, COLD, HOT = SERVICES = range(3)


def sections(job):
    """Sections 1 to S."""
    return job.slots[:job.S]


# The layout

# "numbers are big-endian, unsigned unless said": length (4 bytes), version,
# k, S, T (1 each), meter, G, H, limit and twelve residents (2 each).
HEAD = struct.Struct(">I4B4H12H")

# Parent, kind (1 each), fixtures, length, elevation ("signed two's
# complement"), free head (2 each).
SECTION = struct.Struct(">BBHHhH")

# Where a version has its sections: "From 40 come S sections", and version 2 has "its sections from
# 41". The byte between head and sections is the service.
SECTIONS_FROM = {1: HEAD.size, 2: HEAD.size + 1}


def record_length(version, count):
    """The length of a record of so many sections: 40 + 10 x S, and "41 + 10 x S" in version 2."""
    return SECTIONS_FROM[version] + SECTION.size * count


def stated_length(data):
    return HEAD.unpack_from(data)[0]


def service_in(data):
    """The byte between head and sections of version 2; "version 1 still means total". A record that
    ends before that byte, which 4 refuses, has no service that could be wrong."""
    version = HEAD.unpack_from(data)[1]
    return data[HEAD.size] if version == 2 and len(data) > HEAD.size else TOTAL


def decode_head(data):
    """The job of what stands before the sections, all its slots empty."""
    _, version, *fields = HEAD.unpack_from(data)
    return Job(version, service_in(data), *fields[:7], residents=tuple(fields[7:]),
               slots=(EMPTY,) * SLOTS)


def decode(data):
    """The job of a record that has S sections; the slots past S are empty."""
    head = decode_head(data)
    after = data[SECTIONS_FROM[head.version]:]
    found = [Section(*each) for each in SECTION.iter_unpack(after)]
    return head._replace(slots=tuple(found) + head.slots[len(found):])


def encode(job):
    """The record of a job: its head, in version 2 its service, and its first S sections."""
    fields = job[2:9] + tuple(job.residents)
    head = HEAD.pack(record_length(job.version, job.S), job.version, *fields)
    service = bytes([job.service]) if job.version == 2 else b""
    return head + service + b"".join(SECTION.pack(*each) for each in sections(job))


# The rules

def version_known(job):
    """Else 2: "A wrong version is still 2, now from the writer too"."""
    return job.version in SECTIONS_FROM


def service_fits(job):
    """Else 3, as is "a wrong service": "0 total, 1 cold, 2 hot", and "with version 1 service must
    be 0"."""
    return job.service in SERVICES and (job.version != 1 or job.service == TOTAL)


def fields_in_range(job):
    """Else 3: "k, S, T, meter loss, G, H or limit out of range"."""
    return (
        job.k in (2, 3)
        and 1 <= job.S <= SLOTS
        and 1 <= job.T <= 24
        and job.meter <= 1000
        and job.G <= 6000
        and job.H <= 6000
        and 1 <= job.limit <= 3000
    )


def head_in_range(job):
    return fields_in_range(job) and service_fits(job)


def kind_fits(section):
    """For 5. "Kind is 0 to 12; kind 0 goes with no fixtures and free head 0,
    other kinds with at least one fixture." """
    if section.kind == 0:
        return section.fixtures == 0 and section.free == 0
    return section.kind in KINDS and section.fixtures >= 1


def measures_fit(section):
    """For 5. "Length is 1 to 5,000, elevation -1,000 to 6,000, free head 0
    to 1,000." """
    return (
        1 <= section.length <= 5000
        and -1000 <= section.elevation <= 6000
        and section.free <= 1000
    )


def keeps_own_rules(number, section):
    """Else 5: "a section breaks its own fields' rules". The parent is one of
    these fields: "Parent 0 is the pump; otherwise a parent is less than the
    section's own number." """
    return section.parent < number and kind_fits(section) and measures_fit(section)


def childless(number, job):
    """Whether a section is "nobody's parent", among sections 1 to S."""
    return all(each.parent != number for each in sections(job))


def house_fixtures(kind, job):
    """The fixtures of a kind in the whole house."""
    return sum(each.fixtures for each in sections(job) if each.kind == kind)


def some_section_breaks(job):
    """5: "a section breaks its own fields' rules"."""
    numbered = enumerate(sections(job), start=1)
    return any(not keeps_own_rules(i, each) for i, each in numbered)


def some_end_without_kind(job):
    """6: "a childless section has kind 0". "A section that is nobody's
    parent has a kind above 0." """
    numbered = enumerate(sections(job), start=1)
    return any(each.kind == 0 and childless(i, job) for i, each in numbered)


def some_kind_unpaired(job):
    """7: "residents without fixtures, or the reverse". "A kind has residents
    exactly when it has fixtures somewhere." """
    return any(
        (residents == 0) != (house_fixtures(kind, job) == 0)
        for kind, residents in zip(KINDS, job.residents)
    )


def sections_number(job):
    """5, 6 or 7, the least that applies, or 0; for a head in range."""
    if some_section_breaks(job):
        return 5
    if some_end_without_kind(job):
        return 6
    if some_kind_unpaired(job):
        return 7
    return 0


# Reading, writing and copying

def reading_number(data):
    """The least that applies, or 0. "Reading a job gives 1 to 7." """
    if len(data) < HEAD.size or stated_length(data) != len(data):
        return 1
    head = decode_head(data)
    if not version_known(head):
        return 2
    if not head_in_range(head):
        return 3
    if len(data) != record_length(head.version, head.S):
        return 4
    return sections_number(decode(data))


def writing_number(job, room):
    """The least that applies, or 0. "The writer takes the same fields and
    gives 3, 5, 6, 7, 14", and 2. No section is looked at when S is out of range."""
    if not version_known(job):
        return 2
    if not head_in_range(job):
        return 3
    number = sections_number(job)
    if number != 0:
        return number
    return 14 if room < record_length(job.version, job.S) else 0


def copying_number(data, room):
    """The least that applies, or 0. Copying gives reading's numbers, then 14
    where the buffer is shorter than the record."""
    number = reading_number(data)
    if number != 0:
        return number
    return 14 if room < len(data) else 0


def read(data):
    number = reading_number(data)
    return number, decode(data) if number == 0 else None


def write(job, room):
    number = writing_number(job, room)
    return number, encode(job) if number == 0 else None


def copy(data, room):
    number = copying_number(data, room)
    return number, data if number == 0 else None
